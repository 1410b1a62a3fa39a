//! What is given for a file: its table, its tiles with their windows, a row
//! decoded, a tile decoded alone. What is lent holds random numbers before.

use std::ops::Range;

use xcf_compare::answer::{
    Decode, DecodeAnswer, DecodeDrawable, GOOD, ROW_LENGTH, Read, ReadAnswer, TABLE_LENGTH,
    TileAnswer,
};
use xcf_compare::decode::Drawable;
use xcf_compare::files::{decodable_file, random_table};
use xcf_compare::library;
use xcf_compare::random::Random;

/// The kind of a row that is a mask.
const MASK: u32 = 2;

/// A tile of a row, and its window.
#[derive(Clone)]
pub struct Tile {
    pub row: u32,
    pub tile: usize,
    pub window: Range<usize>,
    pub is_chosen: bool,
}

/// What reading a file gives.
#[derive(PartialEq, Eq)]
pub struct Reading {
    pub answer: ReadAnswer,
    pub table: Vec<u32>,
}

impl Reading {
    /// Reads into a table that holds random numbers.
    pub fn new(random: &mut Random, read: Read, file: &[u8]) -> Self {
        let mut table = random_table(random, TABLE_LENGTH);
        let answer = read(file, &mut table);
        Reading { answer, table }
    }

    /// Asserts that another file is read the same.
    pub fn assert_same(&self, other: &Reading) {
        assert_eq!(other.answer, self.answer);
        assert!(other.table == self.table, "tables differ");
    }

    pub fn rows(&self) -> Range<u32> {
        0..self.answer.rows as u32
    }

    pub fn compression(&self) -> u32 {
        let [compression, _] = self.answer.form();
        compression
    }

    pub fn pointer_size(&self) -> u32 {
        let [_, pointer_size] = self.answer.form();
        pointer_size
    }

    pub fn drawable(&self, file: &[u8], row: u32) -> Drawable {
        let [compression, pointer_size] = self.answer.form();
        Drawable::new(file, &self.table, row, compression, pointer_size)
            .expect("a row that was read")
    }

    /// All tiles of all rows; none is chosen.
    pub fn tiles(&self, file: &[u8]) -> Vec<Tile> {
        let mut tiles = Vec::new();
        for row in self.rows() {
            let windows = self.drawable(file, row).windows(file);
            let windows = windows.expect("pointers that were read").into_iter();
            tiles.extend(windows.enumerate().map(|(tile, window)| Tile {
                row,
                tile,
                window,
                is_chosen: false,
            }));
        }
        tiles
    }

    /// The place of a row's first tile pointer.
    pub fn pointers(&self, row: u32) -> u32 {
        self.table[ROW_LENGTH * row as usize + 8]
    }

    pub fn is_mask(&self, row: u32) -> bool {
        self.table[ROW_LENGTH * row as usize] == MASK
    }
}

/// A valid file with at least one row, what reading it gives, and its tiles.
pub fn read_file(random: &mut Random) -> (Vec<u8>, Reading, Vec<Tile>) {
    loop {
        let file = decodable_file(random).bytes;
        let reading = Reading::new(random, library::read, &file);
        assert_eq!(reading.answer.number, 0);
        let tiles = reading.tiles(&file);
        if !tiles.is_empty() {
            return (file, reading, tiles);
        }
    }
}

/// The marks and pixels of a row.
#[derive(PartialEq, Eq)]
pub struct Decoded {
    pub marks: Vec<u8>,
    pub pixels: Vec<u8>,
}

impl Decoded {
    /// Decodes a row into buffers that hold random bytes.
    pub fn new(
        random: &mut Random,
        decode: DecodeDrawable,
        file: &[u8],
        reading: &Reading,
        row: u32,
    ) -> Self {
        let drawable = reading.drawable(file, row);
        let mut marks = random.bytes(drawable.tile_count());
        let mut pixels = random.bytes(drawable.pixels_length());
        let (table, [compression, size]) = (&reading.table, reading.answer.form());
        let lent = (&mut pixels[..], &mut marks[..]);
        let answer = decode(file, table, row, compression, size, lent.0, lent.1);
        let marked = marks.iter().filter(|&&mark| mark != 0).count();
        assert_eq!(answer, DecodeAnswer::decoded(marked));
        let counted = library::count_marked(file, table, row, compression, size);
        assert_eq!(counted, answer);
        Decoded { marks, pixels }
    }

    /// The mark and the pixels of a tile.
    pub fn tile(&self, drawable: &Drawable, tile: usize) -> (u8, Vec<u8>) {
        (self.marks[tile], drawable.cut_out(tile, &self.pixels))
    }
}

/// What a tile's window alone gives.
#[derive(PartialEq, Eq)]
pub struct Alone {
    pub answer: TileAnswer,
    pub pixels: Vec<u8>,
}

impl Alone {
    /// Decodes a tile's window into a buffer that holds random bytes.
    pub fn new(
        random: &mut Random,
        decode: Decode,
        file: &[u8],
        reading: &Reading,
        tile: &Tile,
    ) -> Self {
        let [width, height, depth] = reading.drawable(file, tile.row).tile_shape(tile.tile);
        let mut pixels = random.bytes((width * height * depth) as usize);
        let window = &file[tile.window.clone()];
        let compression = reading.compression();
        let answer = decode(window, width, height, depth, compression, &mut pixels);
        assert_eq!(answer.number, 0);
        Alone { answer, pixels }
    }

    pub fn is_good(&self) -> bool {
        self.answer.mark == GOOD
    }

    /// The bytes that the tile consumed.
    pub fn consumed(&self, tile: &Tile) -> Range<usize> {
        let start = tile.window.start;
        start..start + self.answer.consumed as usize
    }
}
