//! The plain implementation's results as answers of this package.

use xcf_plain::{Image, Refusal, Tile};

use crate::answer::{DecodeAnswer, ReadAnswer, TileAnswer, WriteAnswer};

/// A refusal's number.
fn number(refusal: Refusal) -> u64 {
    refusal.fault as u64
}

pub fn decoded_tile(result: Result<Tile, Refusal>) -> TileAnswer {
    match result {
        Ok(tile) => TileAnswer::decoded(tile.mark as u64, tile.consumed, tile.operations),
        Err(refusal) => TileAnswer {
            place: refusal.place,
            ..TileAnswer::refused(number(refusal))
        },
    }
}

/// The answer to writing so many bytes.
pub fn written(result: Result<usize, Refusal>) -> WriteAnswer {
    match result {
        Ok(length) => WriteAnswer::written(length),
        Err(refusal) => WriteAnswer::refused_at(number(refusal), refusal.place as usize),
    }
}

pub fn read(result: Result<Image, Refusal>) -> ReadAnswer {
    let image = match result {
        Ok(image) => image,
        Err(refusal) => return ReadAnswer::refused(number(refusal), refusal.place),
    };
    ReadAnswer {
        number: 0,
        place: 0,
        width: image.width.into(),
        height: image.height.into(),
        base: image.base.into(),
        version: image.version.into(),
        compression: image.compression.into(),
        rows: image.rows as u64,
        pointer_size: image.pointer_size.into(),
    }
}

/// The answer to decoding a drawable of so many marked tiles.
pub fn decoded(result: Result<usize, Refusal>) -> DecodeAnswer {
    match result {
        Ok(marked) => DecodeAnswer::decoded(marked),
        Err(refusal) => DecodeAnswer::refused(number(refusal), refusal.place as usize),
    }
}
