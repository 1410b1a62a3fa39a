//! The reference: reading a whole file into a table of rows, written for
//! clarity.

mod cursor;
mod drawable;
mod image;
mod property;
mod version;

use std::ops::Range;

use crate::answer::{
    FILE_LIMIT, FILE_TOO_LONG, ROW_LENGTH, ReadAnswer, TABLE_LENGTH, WRONG_LENGTH,
};
pub(crate) use cursor::number;
use image::Image;

/// Why a file is refused, and where in it the fault stands.
#[derive(Clone, Copy, Debug, PartialEq, Eq)]
struct Refusal {
    number: u64,
    place: u64,
}

/// Reads a file; the table takes a row for each drawable.
pub fn read(file: &[u8], table: &mut [u32]) -> ReadAnswer {
    if table.len() != TABLE_LENGTH {
        return ReadAnswer::refused(WRONG_LENGTH, 0);
    }
    if file.len() > FILE_LIMIT {
        return ReadAnswer::refused(FILE_TOO_LONG, 0);
    }
    table.fill(0);
    match Image::read(file) {
        Ok(image) => {
            for (row, read) in table.chunks_mut(ROW_LENGTH).zip(&image.rows) {
                row.copy_from_slice(read);
            }
            accepted(&image)
        }
        Err(refusal) => ReadAnswer::refused(refusal.number, refusal.place),
    }
}

/// Where the structure bytes of a file lie that is accepted: all that the walk
/// passes over, a range for each structure, which may come again or overlap
/// others.
pub fn structure_bytes(file: &[u8]) -> Option<Vec<Range<usize>>> {
    if file.len() > FILE_LIMIT {
        return None;
    }
    Image::read(file).ok().map(|image| image.passed)
}

fn accepted(image: &Image) -> ReadAnswer {
    ReadAnswer {
        number: 0,
        place: 0,
        width: image.width.into(),
        height: image.height.into(),
        base: image.base.into(),
        version: image.version.number.into(),
        compression: image.compression.into(),
        rows: image.rows.len() as u64,
        pointer_size: image.version.pointer_size() as u64,
    }
}
