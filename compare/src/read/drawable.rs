//! Layers, channels and masks, with their hierarchies and levels.

use std::ops::Range;

use super::Refusal;
use super::cursor::{Cursor, File, Name, Word};
use super::property::{Properties, drawable_list};
use crate::answer::{BAD_TILE_POINTER, DISAGREES, Row, ZERO_POINTER};

/// Bytes per pixel of the layer types 0 to 5.
const DEPTHS: [u32; 6] = [3, 4, 1, 2, 1, 2];

/// The type in the row of a channel or mask.
const CHANNEL_TYPE: u32 = 2;

#[derive(Clone, Copy, PartialEq, Eq)]
pub enum Kind {
    Layer = 1,
    Mask = 2,
    Channel = 3,
}

/// The fields of a layer, channel or mask, before its pointers are followed.
/// Those below are read in the order in which they are written.
pub struct Drawable {
    pub width: u32,
    pub height: u32,
    depth: u32,
    /// A layer's type, or the one in the row of the others.
    kind: u32,
    name: Name,
    properties_place: u64,
    pub properties: Properties,
    hierarchy: u64,
    /// The place of a layer's mask; 0 for none.
    pub mask: u64,
    /// The structure's own bytes.
    pub passed: Range<usize>,
}

/// A hierarchy and its first level, both passed over.
pub struct Tiles {
    /// Where the tile pointers begin.
    pub first: u64,
    pub hierarchy: Range<usize>,
    pub level: Range<usize>,
}

impl Drawable {
    /// The fields of the layer at `place` in an image of the base type.
    pub fn layer(file: File, place: u64, base: u32) -> Result<Self, Refusal> {
        let mut cursor = Cursor::new(file, place);
        let width = cursor.side()?.value;
        let height = cursor.side()?.value;
        let kind = cursor.word()?;
        kind.tested(kind.value <= 5 && kind.value / 2 == base, DISAGREES)?;
        Ok(Drawable {
            width,
            height,
            depth: DEPTHS[kind.value as usize],
            kind: kind.value,
            name: cursor.string()?,
            properties_place: cursor.place(),
            properties: drawable_list(&mut cursor, true)?,
            hierarchy: nonzero_pointer(&mut cursor)?,
            mask: cursor.pointer()?.value,
            passed: cursor.passed(),
        })
    }

    /// The fields of the channel or mask at `place`, whose sides are those of
    /// the canvas or the layer.
    pub fn channel(file: File, place: u64, sides: [u32; 2]) -> Result<Self, Refusal> {
        let mut cursor = Cursor::new(file, place);
        for owners in sides {
            let side = cursor.side()?;
            side.tested(side.value == owners, DISAGREES)?;
        }
        let [width, height] = sides;
        Ok(Drawable {
            width,
            height,
            depth: 1,
            kind: CHANNEL_TYPE,
            name: cursor.string()?,
            properties_place: cursor.place(),
            properties: drawable_list(&mut cursor, false)?,
            hierarchy: nonzero_pointer(&mut cursor)?,
            mask: 0,
            passed: cursor.passed(),
        })
    }

    /// Follows the hierarchy pointer.
    pub fn tiles(&self, file: File) -> Result<Tiles, Refusal> {
        let mut cursor = Cursor::new(file, self.hierarchy);
        for owners in [self.width, self.height, self.depth] {
            equal_word(&mut cursor, owners)?;
        }
        let level = nonzero_pointer(&mut cursor)?;
        while cursor.pointer()?.value != 0 {}
        let (first, level) = self.level(file, level)?;
        Ok(Tiles {
            first,
            hierarchy: cursor.passed(),
            level,
        })
    }

    /// Reads the level at `place`; gives the place where its tile pointers begin
    /// and the level's bytes.
    fn level(&self, file: File, place: u64) -> Result<(u64, Range<usize>), Refusal> {
        let mut cursor = Cursor::new(file, place);
        for owners in [self.width, self.height] {
            equal_word(&mut cursor, owners)?;
        }
        let first = cursor.place();
        let mut before = 0;
        for _ in 0..self.tile_count() {
            let pointer = cursor.pointer()?;
            let usable = pointer.value > before && pointer.value < file.bytes.len() as u64;
            before = pointer.tested(usable, BAD_TILE_POINTER)?.value;
        }
        let closing = cursor.pointer()?;
        closing.tested(closing.value == 0, BAD_TILE_POINTER)?;
        Ok((first, cursor.passed()))
    }

    fn tile_count(&self) -> u32 {
        self.width.div_ceil(64) * self.height.div_ceil(64)
    }

    /// The flags of field 11.
    fn flags(&self, kind: Kind) -> u32 {
        let found = &self.properties;
        let visible = found.visible.unwrap_or(kind == Kind::Layer);
        let apply_mask = self.mask != 0 && found.apply_mask.unwrap_or(true);
        u32::from(visible)
            | u32::from(apply_mask) << 1
            | u32::from(found.selection) << 2
            | u32::from(found.active) << 3
            | u32::from(found.group) << 4
            | u32::from(!self.name.is_utf8) << 5
    }

    /// The drawable's row in the table; `owner` is its own row, or that of its
    /// layer for a mask, whose layer's offsets are given too.
    pub fn row(&self, kind: Kind, first_tile: u64, offsets: [u32; 2], owner: usize) -> Row {
        [
            kind as u32,
            self.width,
            self.height,
            self.depth,
            self.kind,
            self.name.place as u32,
            self.name.count as u32,
            self.properties_place as u32,
            first_tile as u32,
            self.tile_count(),
            self.properties.opacity,
            self.flags(kind),
            offsets[0],
            offsets[1],
            self.properties.mode,
            owner as u32,
        ]
    }
}

/// A pointer that must not be 0.
fn nonzero_pointer(cursor: &mut Cursor) -> Result<u64, Refusal> {
    let pointer = cursor.pointer()?;
    Ok(pointer.tested(pointer.value != 0, ZERO_POINTER)?.value)
}

/// A word that must agree with what it belongs to.
fn equal_word(cursor: &mut Cursor, owners: u32) -> Result<Word, Refusal> {
    let word = cursor.word()?;
    word.tested(word.value == owners, DISAGREES)
}
