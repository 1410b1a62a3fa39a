//! What the tests share: folders in which the command runs, the files it is
//! given, and the numbers it lists.

// Each file of tests is built by itself and uses a part of this.
#![allow(dead_code, unused_imports)]

use std::io::{self, Write};

pub mod files;
pub mod folder;
pub mod listing;
pub mod pam;
pub mod refusals;
pub mod text;

pub use folder::{Answer, Folder, XCF};
pub use pam::Pam;

/// The side of a tile.
pub const TILE: usize = 64;

/// Tells that a test could not be made on this machine; the test then passes,
/// and the line is printed even where a test's own output is captured.
pub fn not_here(what: &str) {
    writeln!(io::stdout(), "NOT TESTED: {what}").expect("standard output takes all");
}
