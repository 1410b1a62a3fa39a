//! All that is written for one row: structure, hierarchy, level and tiles.

use super::usable::{ACTIVE, APPLY_MASK, SELECTION, VISIBLE};
use crate::answer::Row;
use crate::{decode, tile};

/// Bytes of a hierarchy: three numbers, the level pointer, a 0.
const HIERARCHY_LENGTH: usize = 20;

/// A usable row, and what belongs to it.
pub struct Drawable<'a> {
    row: &'a Row,
    has_mask: bool,
    name: &'a [u8],
    /// The tiles' bytes as they are written.
    tiles: Vec<Vec<u8>>,
}

impl<'a> Drawable<'a> {
    /// Encodes the drawable's own pixels, tile by tile.
    pub fn new(row: &'a Row, has_mask: bool, names: &'a [u8], pixels: &[u8]) -> Self {
        let drawable = decode::Drawable::of_row(row, 1, 4).expect("the row is usable");
        let tiles = (0..drawable.tile_count()).map(|index| {
            let pixels = drawable.cut_out(index, pixels);
            tile::encode_pixels(&pixels, row[3] as usize)
        });
        Drawable {
            row,
            has_mask,
            name: &names[row[5] as usize..][..row[6] as usize],
            tiles: tiles.collect(),
        }
    }

    fn is_layer(&self) -> bool {
        self.row[0] == 1
    }

    fn sides(&self) -> [u32; 2] {
        [self.row[1], self.row[2]]
    }

    /// Appends all that belongs to the row to the file.
    pub fn append_to(&self, file: &mut Vec<u8>) {
        let fields = self.fields();
        let pointers = if self.is_layer() { 2 } else { 1 };
        let hierarchy = file.len() + fields.len() + 4 * pointers;
        let level = hierarchy + HIERARCHY_LENGTH;
        let mut tile_places = Vec::new();
        let mut end = level + 8 + 4 * (self.tiles.len() + 1);
        for tile in &self.tiles {
            tile_places.push(end as u32);
            end += tile.len();
        }
        // A mask comes directly behind its layer's tiles.
        let mask = if self.has_mask { end } else { 0 };
        let [width, height] = self.sides();
        file.extend(fields);
        file.extend(words(&[hierarchy as u32, mask as u32][..pointers]));
        file.extend(words(&[width, height, self.row[3], level as u32, 0]));
        file.extend(words(&[width, height]));
        file.extend(words(&tile_places));
        file.extend(words(&[0]));
        for tile in &self.tiles {
            file.extend(tile);
        }
    }

    /// The structure's bytes before its pointers.
    fn fields(&self) -> Vec<u8> {
        let mut fields = words(&self.sides());
        if self.is_layer() {
            fields.extend(words(&[self.row[4]]));
        }
        fields.extend(string(self.name));
        fields.extend(words(&self.list()));
        fields
    }

    /// The property list, of which every payload is words.
    fn list(&self) -> Vec<u32> {
        let [opacity, flags, x, y, mode] = [10, 11, 12, 13, 14].map(|field| self.row[field]);
        let is_set = |flag: u32| flags & flag != 0;
        let mut list = Vec::new();
        if self.is_layer() && is_set(ACTIVE) {
            list.extend([2, 0]);
        }
        if !self.is_layer() && is_set(SELECTION) {
            list.extend([4, 0]);
        }
        if !self.is_layer() && is_set(ACTIVE) {
            list.extend([3, 0]);
        }
        list.extend([6, 4, opacity]);
        list.extend([8, 4, u32::from(is_set(VISIBLE))]);
        if self.has_mask {
            list.extend([11, 4, u32::from(is_set(APPLY_MASK))]);
        }
        if self.is_layer() {
            list.extend([7, 4, mode]);
            list.extend([15, 8, x, y]);
        }
        list.extend([0, 0]);
        list
    }
}

/// A name with its length; an empty one has no closing zero.
fn string(name: &[u8]) -> Vec<u8> {
    match name {
        [] => words(&[0]),
        _ => [&words(&[name.len() as u32 + 1]), name, &[0]].concat(),
    }
}

/// Words as bytes, high byte first.
pub fn words(words: &[u32]) -> Vec<u8> {
    words.iter().flat_map(|word| word.to_be_bytes()).collect()
}
