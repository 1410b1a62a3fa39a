//! The rules for decoding a drawable, one named case after the other, held
//! against the implementations with the answers written out.

mod pointers;
mod refusals;
mod tiles;

use xcf_compare::answer::{CountMarked, DecodeAnswer, DecodeDrawable, Row};
use xcf_compare::files::block::set_number;
use xcf_compare::files::laid::version_11;
use xcf_compare::files::{EXAMPLE, table_of};
use xcf_compare::implementation::ALL;
use xcf_compare::{decode, library};

const COUNTERS: [CountMarked; 2] = [decode::count_marked, library::count_marked];

/// What the lent buffers hold before a call.
const FILLING: u8 = 0xA5;

/// The row of the example's channel.
const CHANNEL: Row = [3, 1, 1, 1, 2, 67, 1, 69, 133, 1, 255, 1, 0, 0, 0, 0];

/// The same row in version 11.
const LONG_CHANNEL: Row = [3, 1, 1, 1, 2, 83, 1, 85, 161, 1, 255, 1, 0, 0, 0, 0];

/// The numbers of a call, and how many bytes it is lent.
#[derive(Clone)]
struct Call {
    file: Vec<u8>,
    table: Vec<u32>,
    row: u32,
    compression: u32,
    pointer_size: u32,
    pixels: usize,
    marks: usize,
}

impl Call {
    /// A call for the first row, with pointers of 4 bytes.
    fn new(file: &[u8], row: Row, compression: u32) -> Self {
        Call {
            file: file.to_vec(),
            table: table_of(&[row]),
            row: 0,
            compression,
            pointer_size: 4,
            pixels: (row[1] * row[2] * row[3]) as usize,
            marks: row[9] as usize,
        }
    }

    /// The example's only tile.
    fn example() -> Self {
        Call::new(&EXAMPLE, CHANNEL, 1)
    }

    /// The example's only tile in version 11.
    fn long_example() -> Self {
        Call::new(&version_11::example(), LONG_CHANNEL, 1).told(8)
    }

    /// The same call with another pointer size.
    fn told(&self, pointer_size: u32) -> Self {
        Call {
            pointer_size,
            ..self.clone()
        }
    }

    /// The same call for a row with another number.
    fn with_field(&self, field: usize, value: u32) -> Self {
        let mut call = self.clone();
        call.table[field] = value;
        call
    }

    /// The same call for a file with another pointer of the size that is told.
    fn with_pointer(&self, place: usize, pointer: u64) -> Self {
        let mut call = self.clone();
        set_number(&mut call.file, place, self.pointer_size as usize, pointer);
        call
    }

    /// The same call with so many bytes lent.
    fn lent(&self, pixels: usize, marks: usize) -> Self {
        Call {
            pixels,
            marks,
            ..self.clone()
        }
    }

    /// The answer and the buffers that a decoder gives.
    fn decode(&self, decode: DecodeDrawable) -> (DecodeAnswer, Vec<u8>, Vec<u8>) {
        let mut pixels = vec![FILLING; self.pixels];
        let mut marks = vec![FILLING; self.marks];
        let (file, table) = (&self.file, &self.table);
        let Call {
            row,
            compression,
            pointer_size: size,
            ..
        } = *self;
        let lent = (&mut pixels[..], &mut marks[..]);
        let answer = decode(file, table, row, compression, size, lent.0, lent.1);
        (answer, pixels, marks)
    }

    /// Asserts, with all, that the call is refused and its buffers are left
    /// as lent.
    fn assert_not_decoded(&self, number: u64, place: usize) {
        for by in ALL {
            let (answer, pixels, marks) = self.decode(by.decode);
            assert_eq!(answer, DecodeAnswer::refused(number, place));
            assert!(pixels.iter().chain(&marks).all(|&byte| byte == FILLING));
        }
    }

    /// Asserts, with both, what counting the marked tiles gives.
    fn assert_counts(&self, answer: DecodeAnswer) {
        let (file, table) = (&self.file, &self.table);
        for count in COUNTERS {
            let given = count(file, table, self.row, self.compression, self.pointer_size);
            assert_eq!(given, answer);
        }
    }

    /// Asserts, with all, that decoding and counting are refused.
    fn assert_refused(&self, number: u64, place: usize) {
        self.assert_not_decoded(number, place);
        self.assert_counts(DecodeAnswer::refused(number, place));
    }

    /// Asserts, with all, the marks and the pixels.
    fn assert_decodes(&self, marks: &[u8], pixels: &[u8]) {
        let marked = marks.iter().filter(|&&mark| mark != 0).count();
        for by in ALL {
            let given = self.decode(by.decode);
            assert_eq!(given.0, DecodeAnswer::decoded(marked));
            assert_eq!(given.2, marks);
            assert!(given.1 == pixels, "pixels differ");
        }
        self.assert_counts(DecodeAnswer::decoded(marked));
    }
}

/// A drawable with a tile pointer of so many bytes for each tile at 1 and tiles
/// behind them, in bytes that are no file.
fn sized_drawable(
    size: usize,
    sides: [u32; 2],
    depth: u32,
    compression: u32,
    tiles: &[&[u8]],
) -> Call {
    let mut file = vec![0; 1 + size * (tiles.len() + 1)];
    file[0] = 0x99;
    for (i, tile) in tiles.iter().enumerate() {
        let place = file.len() as u64;
        set_number(&mut file, 1 + size * i, size, place);
        file.extend(*tile);
    }
    let ([width, height], count) = (sides, tiles.len() as u32);
    let row = [
        1, width, height, depth, 0, 0, 0, 0, 1, count, 0, 0, 0, 0, 0, 0,
    ];
    Call::new(&file, row, compression).told(size as u32)
}

/// The same with pointers of 4 bytes.
fn drawable(sides: [u32; 2], depth: u32, compression: u32, tiles: &[&[u8]]) -> Call {
    sized_drawable(4, sides, depth, compression, tiles)
}

/// Two plain tiles side by side, at 13 and 77; the pointers are at 1 and 5,
/// the closing zero at 9, and the file has 78 bytes.
fn pair() -> Call {
    drawable([65, 1], 1, 0, &[&[1; 64], &[2]])
}
