//! A drawable as it was put into a file, and the row that a reader gives for
//! it.

use super::block::Layout;
use super::property::{Owner, Property, last};
use crate::answer::Row;
use crate::cases::Shape;
use crate::names::name_flag;

/// A layer, channel or mask, and the blocks that it is made of.
pub struct Drawable {
    pub owner: Owner,
    pub shape: Shape,
    /// A layer's type, or the one in the row of the others.
    pub layer_type: u32,
    pub block: usize,
    pub name_offset: usize,
    pub name: Vec<u8>,
    pub properties_offset: usize,
    pub properties: Vec<Property>,
    pub level: usize,
    /// The drawable that is a layer's mask.
    pub mask: Option<usize>,
}

impl Drawable {
    pub fn offsets(&self) -> [u32; 2] {
        last(&self.properties, 15).map_or([0, 0], |property| {
            let (x, y) = property.payload.split_at(4);
            [x, y].map(|word| u32::from_be_bytes(word.try_into().expect("four bytes")))
        })
    }

    /// The number in the last property of a type, or that for an absent one.
    fn number_or(&self, kind: u32, absent: u32) -> u32 {
        last(&self.properties, kind).map_or(absent, Property::number)
    }

    /// Field 11 of the row.
    fn flags(&self) -> u32 {
        let if_present = |kind, flag| last(&self.properties, kind).map_or(0, |_| flag);
        let listed = if self.owner == Owner::Layer {
            let apply_mask = self.mask.map_or(0, |_| self.number_or(11, 1));
            self.number_or(8, 1) + 2 * apply_mask + if_present(2, 8) + if_present(29, 16)
        } else {
            self.number_or(8, 0) + if_present(4, 4) + if_present(3, 8)
        };
        listed + name_flag(&self.name)
    }

    /// The row of the kind: 1 layer, 2 mask, 3 channel.
    pub fn row(&self, kind: u32, layout: &Layout, offsets: [u32; 2], owner: usize) -> Row {
        let start = layout.starts[self.block];
        let is_layer = self.owner == Owner::Layer;
        [
            kind,
            self.shape.width,
            self.shape.height,
            self.shape.depth,
            self.layer_type,
            (start + self.name_offset) as u32,
            self.name.len() as u32,
            (start + self.properties_offset) as u32,
            (layout.starts[self.level] + 8) as u32,
            tile_count(self.shape) as u32,
            self.number_or(6, 255),
            self.flags(),
            offsets[0],
            offsets[1],
            if is_layer { self.number_or(7, 0) } else { 0 },
            owner as u32,
        ]
    }
}

/// Tiles of a drawable of the shape.
pub fn tile_count(shape: Shape) -> usize {
    (shape.width.div_ceil(64) * shape.height.div_ceil(64)) as usize
}

/// The shape of a tile of a drawable of the shape.
pub fn tile_shape(shape: Shape, tile: usize) -> Shape {
    let across = shape.width.div_ceil(64);
    let (column, row) = (tile as u32 % across, tile as u32 / across);
    Shape {
        width: (shape.width - 64 * column).min(64),
        height: (shape.height - 64 * row).min(64),
        ..shape
    }
}
