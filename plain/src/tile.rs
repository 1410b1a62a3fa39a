//! Tiles of up to 64 by 64 pixels, decoded and encoded.

mod decode;
mod encode;

pub use decode::{Mark, Tile, decode_tile};
pub use encode::{STREAM_EXCESS, encode_part, encode_tile};

use crate::{Fault, Refusal};

/// The longest side of a tile.
pub const SIDE: usize = 64;

/// Refuses sides or a depth that no tile has, and pixels of another length.
fn check_shape(width: u32, height: u32, depth: u32, pixels: &[u8]) -> Result<(), Refusal> {
    let sides = 1..=SIDE as u32;
    let is_tile = sides.contains(&width) && sides.contains(&height) && (1..=4).contains(&depth);
    Fault::Unusable.unless(is_tile)?;
    Fault::WrongLength.unless(pixels.len() == (width * height * depth) as usize)
}
