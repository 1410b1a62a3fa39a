//! An output, and the structures that are written to it one after the other.

use crate::row::{ACTIVE, APPLY_MASK, LAYER, Row, SELECTION, VISIBLE};
use crate::tile::{SIDE, encode_part};

/// An output with room, and the place that is written next.
pub struct Output<'a> {
    pub bytes: &'a mut [u8],
    pub place: usize,
}

impl Output<'_> {
    pub fn put(&mut self, bytes: &[u8]) {
        self.bytes[self.place..][..bytes.len()].copy_from_slice(bytes);
        self.place += bytes.len();
    }

    pub fn words(&mut self, words: &[u32]) {
        for word in words {
            self.put(&word.to_be_bytes());
        }
    }

    /// Writes so many words 0; gives the place of the first.
    pub fn zeros(&mut self, count: usize) -> usize {
        let start = self.place;
        self.place += 4 * count;
        self.bytes[start..self.place].fill(0);
        start
    }

    /// Lets the pointer at `pointer` lead to what is written next.
    pub fn lead(&mut self, pointer: usize) {
        let place = self.place as u32;
        self.bytes[pointer..pointer + 4].copy_from_slice(&place.to_be_bytes());
    }

    /// The same, and moves on to the next pointer.
    pub fn lead_next(&mut self, pointer: &mut usize) {
        self.lead(*pointer);
        *pointer += 4;
    }

    /// Writes a drawable's structure; gives the place of the mask pointer.
    pub fn drawable(&mut self, row: &Row, has_mask: bool, name: &[u8]) -> usize {
        let is_layer = row[0] == LAYER;
        self.words(&row[1..3]);
        if is_layer {
            self.words(&[row[4]]);
        }
        self.name(name);
        self.properties(row, has_mask);
        let to_hierarchy = self.zeros(1);
        let to_mask = self.place;
        if is_layer {
            self.zeros(1);
        }
        self.lead(to_hierarchy);
        to_mask
    }

    fn name(&mut self, name: &[u8]) {
        if name.is_empty() {
            self.words(&[0]);
        } else {
            self.words(&[name.len() as u32 + 1]);
            self.put(name);
            self.put(&[0]);
        }
    }

    fn properties(&mut self, row: &Row, has_mask: bool) {
        let flag = |flag| u32::from(row[11] & flag != 0);
        let is_layer = row[0] == LAYER;
        if flag(SELECTION) == 1 {
            self.words(&[4, 0]);
        }
        if flag(ACTIVE) == 1 {
            self.words(&[if is_layer { 2 } else { 3 }, 0]);
        }
        self.words(&[6, 4, row[10], 8, 4, flag(VISIBLE)]);
        if has_mask {
            self.words(&[11, 4, flag(APPLY_MASK)]);
        }
        if is_layer {
            self.words(&[7, 4, row[14], 15, 8, row[12], row[13]]);
        }
        self.words(&[0, 0]);
    }

    /// Writes a hierarchy, its level and the tiles.
    pub fn hierarchy(&mut self, row: &Row, pixels: &[u8]) {
        let [_, width, height, depth, ..] = *row;
        let level = self.place as u32 + 20;
        self.words(&[width, height, depth, level, 0, width, height]);
        let pointers = self.zeros(row[9] as usize + 1);
        let width = width as usize;
        match depth {
            1 => self.tiles::<1>(pixels, width, pointers),
            2 => self.tiles::<2>(pixels, width, pointers),
            3 => self.tiles::<3>(pixels, width, pointers),
            _ => self.tiles::<4>(pixels, width, pointers),
        }
    }

    fn tiles<const DEPTH: usize>(&mut self, pixels: &[u8], width: usize, mut pointer: usize) {
        let (pixels, _) = pixels.as_chunks::<DEPTH>();
        let mut room = [0; SIDE * SIDE];
        let lefts = || (0..width).step_by(SIDE);
        let tiles = pixels
            .chunks(width * SIDE)
            .flat_map(|lines| lefts().map(move |left| (lines, left)));
        for (lines, left) in tiles {
            let columns = left..width.min(left + SIDE);
            self.lead_next(&mut pointer);
            let output = &mut self.bytes[self.place..];
            self.place += encode_part(lines, width, columns, &mut room, output);
        }
    }
}
