//! The rows of a table, and what their numbers mean.

use crate::{Fault, Refusal};

/// Numbers in a row, and in a table of 128 rows.
const ROW_LENGTH: usize = 16;
const TABLE_LENGTH: usize = 128 * ROW_LENGTH;

pub type Row = [u32; ROW_LENGTH];

/// Kinds of drawables.
pub const LAYER: u32 = 1;
pub const MASK: u32 = 2;
pub const CHANNEL: u32 = 3;

/// Bits of field 11.
pub const VISIBLE: u32 = 1;
pub const APPLY_MASK: u32 = 2;
pub const SELECTION: u32 = 4;
pub const ACTIVE: u32 = 8;
pub const GROUP: u32 = 16;
pub const NOT_UTF8: u32 = 32;

/// Bytes per pixel of the layer types 0 to 5.
pub const DEPTHS: [u32; 6] = [3, 4, 1, 2, 1, 2];

/// The rows of a lent table, which must have the right length.
pub fn rows(table: &[u32]) -> Result<&[Row], Refusal> {
    Fault::WrongLength.unless(table.len() == TABLE_LENGTH)?;
    Ok(table.as_chunks().0)
}

/// The same rows, to be written.
pub fn rows_mut(table: &mut [u32]) -> Result<&mut [Row], Refusal> {
    rows(table)?;
    Ok(table.as_chunks_mut().0)
}

/// Whether a canvas or drawable may have the side.
pub fn is_side(side: u32) -> bool {
    (1..=16_384).contains(&side)
}

/// The flag that a name's bytes ask for.
pub fn name_flag(name: &[u8]) -> u32 {
    match str::from_utf8(name) {
        Ok(_) => 0,
        Err(_) => NOT_UTF8,
    }
}

/// How many tiles a drawable of such sides has.
pub fn tile_count(width: u32, height: u32) -> u32 {
    width.div_ceil(64) * height.div_ceil(64)
}

/// Bytes in the pixels of a row of usable sides and depth.
pub fn pixels_length(row: &Row) -> usize {
    let [_, width, height, depth, ..] = row.map(|number| number as usize);
    width * height * depth
}
