//! The rules for writing, one named case after the other, held against the
//! implementations with the answers written out.

mod files;
mod limits;
mod order;
mod refusals;
mod rows;
mod tiles;

use xcf_compare::answer::{Row, Write, WriteAnswer};
use xcf_compare::files::table_of;
use xcf_compare::implementation::ALL;

/// What the output holds before a call.
const FILLING: u8 = 0xA5;

/// Room for every file here that is not the subject of a length.
const ROOM: usize = 100_000;

/// The example's channel, named by the only lent byte.
const CHANNEL: Row = [3, 1, 1, 1, 2, 0, 1, 0, 0, 1, 255, 1, 0, 0, 0, 0];

/// A grey layer of one pixel, without a name.
const LAYER: Row = [1, 1, 1, 1, 2, 0, 0, 0, 0, 1, 255, 1, 0, 0, 0, 0];

/// The mask of that layer.
const MASK: Row = [2, 1, 1, 1, 2, 0, 0, 0, 0, 1, 255, 0, 0, 0, 0, 0];

/// Usable rows for a canvas of 3 by 2 in RGB: a layer with alpha and its mask,
/// the active layer of two tiles, the selection and the active channel.
const ROWS: [Row; 5] = [
    [1, 2, 3, 4, 1, 0, 5, 0, 0, 1, 200, 3, 7, u32::MAX, 4, 0],
    [2, 2, 3, 1, 2, 5, 0, 0, 0, 1, 0, 0, 7, u32::MAX, 0, 0],
    [1, 65, 1, 3, 0, 0, 3, 0, 0, 2, 255, 9, 1, 2, 18, 2],
    [3, 3, 2, 1, 2, 3, 2, 0, 0, 1, 255, 4, 0, 0, 0, 3],
    [3, 3, 2, 1, 2, 0, 0, 0, 0, 1, 9, 9, 0, 0, 0, 4],
];

/// What is lent for a call.
#[derive(Clone)]
struct Call {
    width: u32,
    height: u32,
    base: u32,
    table: Vec<u32>,
    names: Vec<u8>,
    pixels: Vec<u8>,
    output: usize,
}

impl Call {
    /// A call with black pixels for the rows.
    fn new([width, height]: [u32; 2], base: u32, rows: &[Row]) -> Self {
        let length = |row: &Row| (row[1] * row[2] * row[3]) as usize;
        Call {
            width,
            height,
            base,
            table: table_of(rows),
            names: b"Layer".to_vec(),
            pixels: vec![0; rows.iter().map(length).sum()],
            output: ROOM,
        }
    }

    /// The example's channel.
    fn example() -> Self {
        Call::grey(&[CHANNEL]).named(b"s").with_pixels(&[0xFF])
    }

    /// Rows for a grey canvas of one pixel.
    fn grey(rows: &[Row]) -> Self {
        Call::new([1, 1], 1, rows)
    }

    /// The five usable rows.
    fn rows() -> Self {
        Call::new([3, 2], 0, &ROWS)
    }

    /// The same call with other bytes for names.
    fn named(&self, names: &[u8]) -> Self {
        Call {
            names: names.to_vec(),
            ..self.clone()
        }
    }

    /// The same call with other pixels.
    fn with_pixels(&self, pixels: &[u8]) -> Self {
        Call {
            pixels: pixels.to_vec(),
            ..self.clone()
        }
    }

    /// The same call with another number in a row.
    fn with(&self, row: usize, field: usize, value: u32) -> Self {
        let mut call = self.clone();
        call.table[16 * row + field] = value;
        call
    }

    /// The same call with another row.
    fn with_row(&self, row: usize, numbers: Row) -> Self {
        let mut call = self.clone();
        call.table[16 * row..][..16].copy_from_slice(&numbers);
        call
    }

    /// The same call with a flag of a row set.
    fn flagged(&self, row: usize, flag: u32) -> Self {
        let flags = self.table[16 * row + 11] | flag;
        self.with(row, 11, flags)
    }

    /// The same call with an output of another length.
    fn lent(&self, output: usize) -> Self {
        Call {
            output,
            ..self.clone()
        }
    }

    /// The answer and the output that a writer gives.
    fn write(&self, write: Write) -> (WriteAnswer, Vec<u8>) {
        let mut output = vec![FILLING; self.output];
        let (table, names, pixels) = (&self.table, &self.names, &self.pixels);
        let Call {
            width,
            height,
            base,
            ..
        } = *self;
        let answer = write(width, height, base, table, names, pixels, &mut output);
        (answer, output)
    }

    /// Asserts, with all, that the call is refused and the output left as
    /// lent.
    fn assert_refused(&self, number: u64, place: usize) {
        for by in ALL {
            let (answer, output) = self.write(by.write);
            assert_eq!(answer, WriteAnswer::refused_at(number, place));
            assert!(output.iter().all(|&byte| byte == FILLING));
        }
    }

    /// Asserts, with all, that a row is the lowest bad one.
    fn assert_bad(&self, row: usize) {
        self.assert_refused(17, row);
    }

    /// Asserts, with all, that a number in a row makes it the lowest bad one,
    /// whichever of the values it is.
    fn assert_all_bad(&self, row: usize, field: usize, values: &[u32]) {
        for &value in values {
            self.with(row, field, value).assert_bad(row);
        }
    }

    /// Asserts that all accept the call and write the same, and nothing
    /// behind that; gives the file.
    fn file(&self) -> Vec<u8> {
        let [ours, others @ ..] = ALL.map(|by| {
            let (answer, output) = self.write(by.write);
            assert_eq!((answer.number, answer.place), (0, 0));
            let (file, beyond) = output.split_at(answer.length as usize);
            assert!(beyond.iter().all(|&byte| byte == FILLING));
            file.to_vec()
        });
        assert!(others.iter().all(|file| *file == ours), "files differ");
        ours
    }
}

/// The word at a place.
fn word(file: &[u8], place: usize) -> u32 {
    u32::from_be_bytes(file[place..place + 4].try_into().unwrap())
}
