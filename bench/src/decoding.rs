//! Measures the library's decoder of drawables against a plain Rust one, and
//! against a copy of the same pixels.

use std::hint::black_box;

use xcf_compare::answer::{DecodeAnswer, DecodeDrawable, TABLE_LENGTH};
use xcf_compare::implementation::{LIBRARY, PLAIN};
use xcf_compare::tile;

use crate::files;
use crate::turns::{SIDE, Work, compare, contents, print_heading};

const TILE: usize = 64;
const TILES: usize = (SIDE / TILE) * (SIDE / TILE);

/// A drawable in a file of its own, and the pixels that it decodes to.
pub struct Drawable {
    content: &'static str,
    depth: usize,
    pub file: Vec<u8>,
    table: Vec<u32>,
    pixels: Vec<u8>,
}

/// Buffers that are lent to every call.
struct Lent {
    pixels: Vec<u8>,
    marks: Vec<u8>,
}

impl Drawable {
    pub fn new(content: &'static str, depth: usize, pixels: Vec<u8>) -> Self {
        let windows = (0..TILES).map(|index| {
            let bytes = cut_out(&pixels, depth, index);
            tile::encode_pixels(&bytes, depth)
        });
        let file = files::one_layer(SIDE as u32, depth as u32, windows.collect());
        let mut table = vec![0; TABLE_LENGTH];
        let answer = (LIBRARY.read)(&file, &mut table);
        assert_eq!((answer.number, answer.rows), (0, 1));
        Drawable {
            content,
            depth,
            file,
            table,
            pixels,
        }
    }

    fn decode(&self, decode: DecodeDrawable, lent: &mut Lent) -> DecodeAnswer {
        let Lent { pixels, marks } = lent;
        decode(&self.file, &self.table, 0, 1, 4, pixels, marks)
    }

    /// Stops unless the decoder gives the pixels, and marks no tile.
    fn check(&self, decode: DecodeDrawable) {
        let mut lent = Lent {
            pixels: vec![0xA5; self.pixels.len()],
            marks: vec![0xA5; TILES],
        };
        let answer = self.decode(decode, &mut lent);
        assert_eq!(answer, DecodeAnswer::decoded(0));
        assert!(lent.marks == [0; TILES], "a tile is marked");
        assert!(lent.pixels == self.pixels, "decoded pixels differ");
    }

    fn compare(&self) {
        self.check(LIBRARY.decode);
        self.check(PLAIN.decode);
        let mut lent = Lent {
            pixels: vec![0; self.pixels.len()],
            marks: vec![0; TILES],
        };
        compare("drawable", self.depth, self.content, |work| {
            let lent = black_box(&mut lent);
            match work {
                Work::Library => {
                    black_box(self.decode(LIBRARY.decode, lent));
                }
                Work::Plain => {
                    black_box(self.decode(PLAIN.decode, lent));
                }
                Work::Copy => lent.pixels.copy_from_slice(black_box(&self.pixels)),
            }
        });
    }
}

/// The bytes of a tile.
fn cut_out(pixels: &[u8], depth: usize, index: usize) -> Vec<u8> {
    let (left, top) = (index % (SIDE / TILE) * TILE, index / (SIDE / TILE) * TILE);
    let lines = top..top + TILE;
    let line = |line| &pixels[(line * SIDE + left) * depth..][..TILE * depth];
    lines.flat_map(line).copied().collect()
}

pub fn compare_decoders() {
    print_heading("decoded");
    for depth in [1, 4] {
        for (content, pixels) in contents(depth) {
            Drawable::new(content, depth, pixels).compare();
        }
    }
}
