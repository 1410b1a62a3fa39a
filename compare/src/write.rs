//! The reference: writing a whole file from a table of rows, names and pixels,
//! written for clarity.

mod drawable;
mod usable;

use crate::answer::{
    BAD_BASE, BAD_SIDE, FILE_LIMIT, OUTPUT_TOO_SHORT, Row, SIDE_LIMIT, TABLE_LENGTH, UNUSABLE_ROW,
    WRONG_LENGTH, WriteAnswer,
};
use crate::tile;
use drawable::{Drawable, words};
use usable::Rows;

/// The modes that need a newer version.
const NEW_MODES: std::ops::RangeInclusive<u32> = 19..=21;

/// Writes a file to the start of `output`.
pub fn write(
    width: u32,
    height: u32,
    base: u32,
    table: &[u32],
    names: &[u8],
    pixels: &[u8],
    output: &mut [u8],
) -> WriteAnswer {
    let canvas = Canvas {
        width,
        height,
        base,
    };
    match canvas.file(table, names, pixels) {
        Ok(file) if file.len() <= FILE_LIMIT => tile::write(&file, output),
        Ok(_) => WriteAnswer::refused(OUTPUT_TOO_SHORT),
        Err(refusal) => refusal,
    }
}

/// The image without its drawables.
struct Canvas {
    width: u32,
    height: u32,
    base: u32,
}

impl Canvas {
    /// The file, however long, unless what is lent cannot be used.
    fn file(&self, table: &[u32], names: &[u8], pixels: &[u8]) -> Result<Vec<u8>, WriteAnswer> {
        if table.len() != TABLE_LENGTH {
            return Err(WriteAnswer::refused(WRONG_LENGTH));
        }
        self.test()?;
        let (rows, _) = table.as_chunks();
        let rows = Rows {
            canvas: self,
            names,
            rows,
        };
        let rows = match rows.lowest_bad() {
            None => rows.used(),
            Some(row) => return Err(WriteAnswer::refused_at(UNUSABLE_ROW, row)),
        };
        match pixels_length(rows) == pixels.len() {
            true => Ok(self.image(rows, names, pixels)),
            false => Err(WriteAnswer::refused(WRONG_LENGTH)),
        }
    }

    /// Refuses sides and bases at the places that they have in a file.
    fn test(&self) -> Result<(), WriteAnswer> {
        for (side, place) in [(self.width, 14), (self.height, 18)] {
            if !(1..=SIDE_LIMIT).contains(&side) {
                return Err(WriteAnswer::refused_at(BAD_SIDE, place));
            }
        }
        match self.base {
            0 | 1 => Ok(()),
            _ => Err(WriteAnswer::refused_at(BAD_BASE, 22)),
        }
    }

    /// The image's structure, and then all that belongs to each row.
    fn image(&self, rows: &[Row], names: &[u8], mut pixels: &[u8]) -> Vec<u8> {
        let mut file = self.start(rows);
        let pointers = file.len();
        let count = |kind: u32| rows.iter().filter(|row| row[0] == kind).count();
        file.resize(pointers + 4 * (count(1) + count(3) + 2), 0);
        let (mut layers, mut channels) = (Vec::new(), Vec::new());
        for (index, row) in rows.iter().enumerate() {
            let place = file.len();
            match row[0] {
                1 => layers.push(place as u32),
                3 => channels.push(place as u32),
                _ => {}
            }
            let (own, later) = pixels.split_at(pixels_length(&[*row]));
            let has_mask = rows.get(index + 1).is_some_and(|next| next[0] == 2);
            Drawable::new(row, has_mask, names, own).append_to(&mut file);
            pixels = later;
        }
        let places = words(&[&layers[..], &[0], &channels, &[0]].concat());
        file[pointers..][..places.len()].copy_from_slice(&places);
        file
    }

    /// The image's structure up to its pointers.
    fn start(&self, rows: &[Row]) -> Vec<u8> {
        let is_new = rows.iter().any(|row| NEW_MODES.contains(&row[14]));
        let tag = if is_new { b"v002\0" } else { b"file\0" };
        let compression = [&words(&[17, 1])[..], &[1]].concat();
        [
            b"gimp xcf ",
            &tag[..],
            &words(&[self.width, self.height, self.base]),
            &compression,
            &words(&[0, 0]),
        ]
        .concat()
    }
}

/// Bytes in the pixels of all rows.
fn pixels_length(rows: &[Row]) -> usize {
    let length = |row: &Row| row[1] as usize * row[2] as usize * row[3] as usize;
    rows.iter().map(length).sum()
}
