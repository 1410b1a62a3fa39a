//! A row of the table, and its numbers by name.

use std::ops::{Index, IndexMut};

use crate::library::{ROW_LENGTH, TILE_SIDE};

/// Where each number of a row stands.
pub mod field {
    pub const KIND: usize = 0;
    pub const WIDTH: usize = 1;
    pub const HEIGHT: usize = 2;
    pub const DEPTH: usize = 3;
    pub const TYPE: usize = 4;
    pub const NAME_PLACE: usize = 5;
    pub const NAME_LENGTH: usize = 6;
    pub const TILES: usize = 9;
    pub const OPACITY: usize = 10;
    pub const FLAGS: usize = 11;
    pub const OFFSET_X: usize = 12;
    pub const OFFSET_Y: usize = 13;
    pub const MODE: usize = 14;
    pub const OWNER: usize = 15;
}

/// The flags of rows that are written.
pub mod flag {
    pub const VISIBLE: u32 = 1;
    pub const APPLY_MASK: u32 = 2;
    pub const SELECTION: u32 = 4;
    pub const ACTIVE: u32 = 8;
    /// Nothing is stored for it: it tells what the name's bytes are.
    pub const NOT_UTF8: u32 = 32;
}

const KIND_WORDS: [&str; 4] = ["unused", "layer", "mask", "channel"];
const TYPE_WORDS: [&str; 6] = [
    "RGB",
    "RGB alpha",
    "grey",
    "grey alpha",
    "indexed",
    "indexed alpha",
];
/// From the lowest bit on.
const FLAG_WORDS: [&str; 6] = [
    "visible",
    "apply mask",
    "selection",
    "active",
    "group",
    "not UTF-8",
];

/// What a row's drawable is.
#[derive(Clone, Copy, Debug, PartialEq, Eq)]
pub enum Kind {
    Layer = 1,
    Mask = 2,
    Channel = 3,
}

impl Kind {
    pub fn word(self) -> &'static str {
        KIND_WORDS[self as usize]
    }
}

#[derive(Clone, Copy, Debug, Default, PartialEq, Eq)]
pub struct Row(pub [u32; ROW_LENGTH]);

impl Index<usize> for Row {
    type Output = u32;

    fn index(&self, field: usize) -> &u32 {
        &self.0[field]
    }
}

impl IndexMut<usize> for Row {
    fn index_mut(&mut self, field: usize) -> &mut u32 {
        &mut self.0[field]
    }
}

/// The types of layers of 1 to 4 bands: grey, with alpha, RGB, with alpha.
const LAYER_TYPES: [u32; 4] = [2, 3, 0, 1];
/// The type of masks and channels, and of a layer of one band.
pub const GREY: u32 = 2;

impl Row {
    /// The row of a drawable of which only its size is said.
    pub fn drawable(kind: Kind, width: u32, height: u32, depth: u32) -> Self {
        let mut row = Row::default();
        row[field::KIND] = kind as u32;
        row[field::WIDTH] = width;
        row[field::HEIGHT] = height;
        row[field::DEPTH] = depth;
        row[field::TYPE] = match (kind, depth) {
            (Kind::Layer, 1..=4) => LAYER_TYPES[depth as usize - 1],
            _ => GREY,
        };
        row[field::TILES] = (row.columns() * row.lines()) as u32;
        row[field::OPACITY] = 255;
        row
    }

    pub fn kind_word(&self) -> &'static str {
        word(&KIND_WORDS, self[field::KIND])
    }

    pub fn type_words(&self) -> &'static str {
        word(&TYPE_WORDS, self[field::TYPE])
    }

    /// The flags that are set, in words.
    pub fn flag_words(&self) -> Vec<&'static str> {
        let set = |bit: &usize| self[field::FLAGS] >> bit & 1 == 1;
        let bits = (0..FLAG_WORDS.len()).filter(set);
        bits.map(|bit| FLAG_WORDS[bit]).collect()
    }

    /// How many bytes its pixels have.
    pub fn pixels_length(&self) -> usize {
        let size = [field::WIDTH, field::HEIGHT, field::DEPTH];
        size.map(|n| self[n] as usize).iter().product()
    }

    /// How many tiles stand beside each other.
    pub fn columns(&self) -> usize {
        self[field::WIDTH].div_ceil(TILE_SIDE) as usize
    }

    /// How many tiles stand above each other.
    pub fn lines(&self) -> usize {
        self[field::HEIGHT].div_ceil(TILE_SIDE) as usize
    }
}

fn word(words: &[&'static str], number: u32) -> &'static str {
    words.get(number as usize).unwrap_or(&"unknown")
}
