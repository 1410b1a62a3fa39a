//! Whether the writer can use the rows that it is lent.

use super::Lent;
use crate::row::{
    ACTIVE, APPLY_MASK, CHANNEL, DEPTHS, LAYER, MASK, NOT_UTF8, Row, SELECTION, VISIBLE, is_side,
    name_flag, tile_count,
};

/// What the rows before one have used up.
#[derive(Default)]
struct Tests {
    layers: usize,
    channels: usize,
    /// Whether there is an active layer, an active channel or mask, a
    /// selection, an unused row.
    active_layer: bool,
    active_channel: bool,
    selection: bool,
    unused: bool,
}

/// Sets a switch if `flag`; false if it was set already.
fn set_once(switch: &mut bool, flag: bool) -> bool {
    let first = !(*switch && flag);
    *switch |= flag;
    first
}

impl Lent<'_> {
    /// The number of the first bad row, if there is one.
    pub fn bad_row(&self) -> Option<usize> {
        let mut tests = Tests::default();
        (0..self.rows.len()).find(|&index| !self.pass(&mut tests, index))
    }

    /// Whether a row is usable behind those that passed the tests.
    fn pass(&self, tests: &mut Tests, index: usize) -> bool {
        let row = &self.rows[index];
        if row[0] == 0 {
            tests.unused = true;
            return row.iter().all(|&number| number == 0);
        }
        if tests.unused || !is_side(row[1]) || !is_side(row[2]) {
            return false;
        }
        let shared = self.pass_name(row)
            && (row[7], row[8]) == (0, 0)
            && row[9] == tile_count(row[1], row[2])
            && row[10] <= 255;
        shared
            && match row[0] {
                LAYER => self.pass_layer(tests, index),
                MASK => self.pass_mask(tests, index),
                CHANNEL => self.pass_channel(tests, index),
                _ => false,
            }
    }

    /// Whether a name lies among the lent bytes, is short enough, and is what its
    /// flag says.
    fn pass_name(&self, row: &Row) -> bool {
        let [start, length] = [row[5], row[6]].map(|number| number as usize);
        let name = self.names.get(start..start + length);
        length <= 1_024 && name.is_some_and(|name| row[11] & NOT_UTF8 == name_flag(name))
    }

    fn pass_layer(&self, tests: &mut Tests, index: usize) -> bool {
        let row = &self.rows[index];
        tests.layers += 1;
        tests.layers <= 48
            && tests.channels == 0
            && row[4] >> 1 == self.base
            && DEPTHS.get(row[4] as usize) == Some(&row[3])
            && row[11] & !(VISIBLE | APPLY_MASK | ACTIVE | NOT_UTF8) == 0
            && (row[11] & APPLY_MASK == 0 || self.has_mask(index))
            && set_once(&mut tests.active_layer, row[11] & ACTIVE != 0)
            && row[14] <= 21
            && row[15] == index as u32
    }

    fn pass_mask(&self, tests: &mut Tests, index: usize) -> bool {
        let row = &self.rows[index];
        match index.checked_sub(1).map(|owner| &self.rows[owner]) {
            Some(layer) if layer[0] == LAYER => {
                row[1..3] == layer[1..3]
                    && row[12..14] == layer[12..14]
                    && row[15] == index as u32 - 1
                    && pass_channel_numbers(tests, row)
            }
            _ => false,
        }
    }

    fn pass_channel(&self, tests: &mut Tests, index: usize) -> bool {
        let row = &self.rows[index];
        tests.channels += 1;
        tests.channels <= 32
            && row[1..3] == self.canvas
            && row[12..14] == [0, 0]
            && row[15] == index as u32
            && pass_channel_numbers(tests, row)
    }

    pub fn has_mask(&self, index: usize) -> bool {
        self.rows.get(index + 1).is_some_and(|next| next[0] == MASK)
    }
}

/// The tests that masks and channels share.
fn pass_channel_numbers(tests: &mut Tests, row: &Row) -> bool {
    (row[3], row[4], row[14]) == (1, 2, 0)
        && row[11] & !(VISIBLE | SELECTION | ACTIVE | NOT_UTF8) == 0
        && set_once(&mut tests.selection, row[11] & SELECTION != 0)
        && set_once(&mut tests.active_channel, row[11] & ACTIVE != 0)
}
