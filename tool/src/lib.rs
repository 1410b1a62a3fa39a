//! The command `xcf`, over the proved library. All that is said of a file
//! comes from the library's functions; this package reads and writes files,
//! and shows what the functions answer.

pub mod arguments;
pub mod command;
pub mod draft;
pub mod escape;
pub mod fault;
pub mod help;
pub mod image;
pub mod input;
#[allow(unsafe_code)]
pub mod library;
pub mod memory;
pub mod output;
pub mod pam;
pub mod progress;
pub mod refusal;
pub mod row;
