//! Which rows can be written: those that a reader could have given, and some
//! of their numbers within narrower limits.

use super::Canvas;
use crate::answer::{Row, SIDE_LIMIT};

const MOST_LAYERS: usize = 48;
const MOST_CHANNELS: usize = 32;
const LONGEST_NAME: u32 = 1_024;
const LAST_MODE: u32 = 21;

/// Bits of field 11.
pub const VISIBLE: u32 = 1;
pub const APPLY_MASK: u32 = 2;
pub const SELECTION: u32 = 4;
pub const ACTIVE: u32 = 8;
/// The name is not well-formed UTF-8.
const NOT_UTF8: u32 = 32;

/// Bytes per pixel of the layer types 0 to 3.
const DEPTHS: [u32; 4] = [3, 4, 1, 2];

/// The rows of a table, and what they must agree with.
pub struct Rows<'a> {
    pub canvas: &'a Canvas,
    pub names: &'a [u8],
    pub rows: &'a [Row],
}

impl<'a> Rows<'a> {
    /// The number of the lowest row that is not usable, if there is one.
    pub fn lowest_bad(&self) -> Option<usize> {
        (0..self.rows.len()).find(|&index| !self.is_usable(index))
    }

    /// The rows before the first unused one.
    pub fn used(&self) -> &'a [Row] {
        let unused = self.rows.iter().position(|row| row[0] == 0);
        &self.rows[..unused.unwrap_or(self.rows.len())]
    }

    /// Whether a row is usable, if all before it are.
    fn is_usable(&self, index: usize) -> bool {
        let row = &self.rows[index];
        match row[0] {
            0 => *row == [0; 16],
            1 => self.is_drawable(index, APPLY_MASK) && self.is_layer(index),
            2 => self.is_drawable(index, SELECTION) && self.is_mask(index),
            3 => self.is_drawable(index, SELECTION) && self.is_channel(index),
            _ => false,
        }
    }

    /// What every used row has to be; `flag` is the one that some kinds have
    /// and others have not.
    fn is_drawable(&self, index: usize, flag: u32) -> bool {
        let row = &self.rows[index];
        self.before(index).iter().all(|row| row[0] != 0)
            && row[1..3].iter().all(|side| (1..=SIDE_LIMIT).contains(side))
            && self.is_named(index)
            && row[7..9] == [0, 0]
            && row[9] == row[1].div_ceil(64) * row[2].div_ceil(64)
            && row[10] <= 255
            && row[11] & !(VISIBLE | flag | ACTIVE | NOT_UTF8) == 0
    }

    /// Whether a name lies within the lent bytes, is not too long, and is what
    /// its flag says.
    fn is_named(&self, index: usize) -> bool {
        let row = &self.rows[index];
        let (start, count) = (row[5] as usize, row[6] as usize);
        let name = self.names.get(start..start + count);
        let says_utf8 = row[11] & NOT_UTF8 == 0;
        row[6] <= LONGEST_NAME && name.is_some_and(|name| str::from_utf8(name).is_ok() == says_utf8)
    }

    fn is_layer(&self, index: usize) -> bool {
        let row = &self.rows[index];
        let has_mask = self.rows.get(index + 1).is_some_and(|next| next[0] == 2);
        self.count(index, 1) < MOST_LAYERS
            && self.count(index, 3) == 0
            && row[4] / 2 == self.canvas.base
            && DEPTHS.get(row[4] as usize) == Some(&row[3])
            && (has_mask || row[11] & APPLY_MASK == 0)
            && self.is_only(index, ACTIVE, &[1])
            && row[14] <= LAST_MODE
            && row[15] as usize == index
    }

    fn is_mask(&self, index: usize) -> bool {
        let row = &self.rows[index];
        self.before(index).last().is_some_and(|layer| {
            layer[0] == 1
                && row[1..3] == layer[1..3]
                && row[12..14] == layer[12..14]
                && row[15] == layer[15]
                && self.has_one_byte(index)
        })
    }

    fn is_channel(&self, index: usize) -> bool {
        let row = &self.rows[index];
        self.count(index, 3) < MOST_CHANNELS
            && row[1..3] == [self.canvas.width, self.canvas.height]
            && row[12..14] == [0, 0]
            && row[15] as usize == index
            && self.has_one_byte(index)
    }

    /// What masks and channels have in common.
    fn has_one_byte(&self, index: usize) -> bool {
        let row = &self.rows[index];
        row[3..5] == [1, 2]
            && self.is_only(index, SELECTION, &[2, 3])
            && self.is_only(index, ACTIVE, &[2, 3])
            && row[14] == 0
    }

    fn before(&self, index: usize) -> &[Row] {
        &self.rows[..index]
    }

    /// How many rows of the kind come before a row.
    fn count(&self, index: usize, kind: u32) -> usize {
        let of_kind = |row: &&Row| row[0] == kind;
        self.before(index).iter().filter(of_kind).count()
    }

    /// Whether a row lacks the flag, or is the first of these kinds to have it.
    fn is_only(&self, index: usize, flag: u32, kinds: &[u32]) -> bool {
        let has_too = |row: &Row| kinds.contains(&row[0]) && row[11] & flag != 0;
        self.rows[index][11] & flag == 0 || !self.before(index).iter().any(has_too)
    }
}
