//! XCF files read, decoded and written in plain Rust, as one would write it for
//! speed: what the benchmark measures the library against. It needs no other
//! package, so that what it is compared with shares nothing with it.

mod decode;
mod pointers;
mod read;
mod refusal;
mod row;
mod tile;
mod write;

pub use decode::decode;
pub use read::{Image, read};
pub use refusal::{Fault, Refusal};
pub use tile::{Mark, Tile, decode_tile, encode_tile};
pub use write::write;

/// Longer files are refused, and none is written.
const FILE_LIMIT: usize = 1 << 30;
