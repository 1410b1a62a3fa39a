//! Compares the static library, and the plain Rust that it is measured against,
//! with an independent implementation of the rules: for one tile, for reading a
//! whole file, for decoding a drawable, for writing a whole file.

pub mod answer;
pub mod cases;
pub mod decode;
pub mod files;
pub mod folder;
pub mod gimp;
pub mod guard;
pub mod implementation;
pub mod library;
pub mod list;
pub mod list_cases;
pub mod names;
pub mod numbers;
pub mod pictures;
mod plain;
pub mod programs;
pub mod random;
pub mod read;
pub mod tables;
pub mod tally;
pub mod tile;
pub mod vectors;
pub mod write;

use std::io::Write;

/// Prints a line even where a test's own output is captured.
pub fn report(line: &str) {
    writeln!(std::io::stdout(), "{line}").expect("standard output takes all");
}
