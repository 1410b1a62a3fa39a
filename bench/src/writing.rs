//! Measures the library's writer against a plain Rust one, and against a copy
//! of the same pixels.

use std::hint::black_box;

use xcf_compare::answer::{Row, Write, WriteAnswer};
use xcf_compare::files::table_of;
use xcf_compare::implementation::{LIBRARY, PLAIN};
use xcf_compare::write as reference;

use crate::turns::{SIDE, Work, compare, contents, print_heading};

/// A drawable to write as the only layer of a file.
struct Drawable {
    content: &'static str,
    depth: usize,
    base: u32,
    table: Vec<u32>,
    pixels: Vec<u8>,
}

impl Drawable {
    fn new(content: &'static str, depth: usize, pixels: Vec<u8>) -> Self {
        let (side, bytes) = (SIDE as u32, depth as u32);
        let kind = [2, 3, 0, 1][depth - 1];
        let count = (side / 64) * (side / 64);
        let row: Row = [
            1, side, side, bytes, kind, 0, 5, 0, 0, count, 255, 9, 0, 0, 0, 0,
        ];
        Drawable {
            content,
            depth,
            base: kind / 2,
            table: table_of(&[row]),
            pixels,
        }
    }

    fn write(&self, write: Write, output: &mut [u8]) -> WriteAnswer {
        let (side, table, pixels) = (SIDE as u32, &self.table, &self.pixels);
        write(side, side, self.base, table, b"Layer", pixels, output)
    }

    /// An output with room for any pixels.
    fn output(&self) -> Vec<u8> {
        vec![0xA5; self.pixels.len() + self.pixels.len() / 32]
    }

    /// The answer and the file that a writer gives.
    fn file(&self, write: Write) -> (WriteAnswer, Vec<u8>) {
        let mut output = self.output();
        (self.write(write, &mut output), output)
    }

    fn compare(&self) {
        let expected = self.file(reference::write);
        for write in [LIBRARY.write, PLAIN.write] {
            assert!(self.file(write) == expected, "files differ");
        }
        let mut output = self.output();
        compare("written", self.depth, self.content, |work| {
            let output = black_box(&mut output);
            match work {
                Work::Library => {
                    black_box(self.write(LIBRARY.write, output));
                }
                Work::Plain => {
                    black_box(self.write(PLAIN.write, output));
                }
                Work::Copy => {
                    let pixels = black_box(&self.pixels);
                    output[..pixels.len()].copy_from_slice(pixels);
                }
            }
        });
    }
}

pub fn compare_writers() {
    print_heading("written");
    for depth in [1, 3, 4] {
        for (content, pixels) in contents(depth) {
            Drawable::new(content, depth, pixels).compare();
        }
    }
}
