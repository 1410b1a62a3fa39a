//! A file written: straight into the output where that has room for any
//! pixels, and else into a buffer of its own.

mod output;
mod usable;

use crate::row::{CHANNEL, LAYER, MASK, Row, is_side, pixels_length, rows};
use crate::tile::STREAM_EXCESS;
use crate::{FILE_LIMIT, Fault, Refusal};
use output::Output;

/// The most bytes of a drawable beside its name, tile pointers and tiles.
const FIELDS_LENGTH: usize = 137;

/// Bytes of the image's structure beside its pointers.
const IMAGE_LENGTH: usize = 43;

/// What is lent to the writer, but for the output.
struct Lent<'a> {
    canvas: [u32; 2],
    base: u32,
    rows: &'a [Row],
    names: &'a [u8],
    pixels: &'a [u8],
}

impl<'a> Lent<'a> {
    /// Refuses what no file is written from.
    fn check(&self) -> Result<(), Refusal> {
        for (&side, place) in self.canvas.iter().zip([14, 18]) {
            if !is_side(side) {
                return Err(Fault::BadSide.at(place));
            }
        }
        if self.base > 1 {
            return Err(Fault::BadBase.at(22));
        }
        if let Some(row) = self.bad_row() {
            return Err(Fault::UnusableRow.at(row));
        }
        let length = self.used().map(|(_, row)| pixels_length(row)).sum();
        Fault::WrongLength.unless(self.pixels.len() == length)
    }

    /// The rows with their numbers, up to the first unused one.
    fn used(&self) -> impl Iterator<Item = (usize, &'a Row)> + use<'a> {
        let rows = self.rows.iter().enumerate();
        rows.take_while(|(_, row)| row[0] != 0)
    }

    /// A length that no file of these rows exceeds.
    fn bound(&self) -> usize {
        let drawable = |(_, row): (usize, &Row)| {
            let (tiles, streams) = (row[9] as usize, row[9] as usize * row[3] as usize);
            let structures = FIELDS_LENGTH + row[6] as usize + 4 * tiles;
            structures + pixels_length(row) + STREAM_EXCESS * streams
        };
        let pointers = self.used().count() + 2;
        IMAGE_LENGTH + 4 * pointers + self.used().map(drawable).sum::<usize>()
    }

    /// Writes to an output of the bound's length; gives the file's.
    fn write(&self, output: &mut [u8]) -> usize {
        let mut output = Output {
            bytes: output,
            place: 0,
        };
        let is_new = self.used().any(|(_, row)| row[14] >= 19);
        output.put(b"gimp xcf ");
        output.put(if is_new { b"v002\0" } else { b"file\0" });
        output.words(&[self.canvas[0], self.canvas[1], self.base, 17, 1]);
        output.put(&[1]);
        output.words(&[0, 0]);
        self.write_rows(&mut output);
        output.place
    }

    /// Writes the pointers to the drawables, and these.
    fn write_rows(&self, output: &mut Output) {
        let count = |kind| self.used().filter(|(_, row)| row[0] == kind).count();
        let mut to_layer = output.zeros(count(LAYER) + 1);
        let mut to_channel = output.zeros(count(CHANNEL) + 1);
        let mut to_mask = 0;
        let mut pixels = self.pixels;
        for (index, row) in self.used() {
            let (own, later) = pixels.split_at(pixels_length(row));
            pixels = later;
            match row[0] {
                LAYER => output.lead_next(&mut to_layer),
                MASK => output.lead(to_mask),
                _ => output.lead_next(&mut to_channel),
            }
            let name = &self.names[row[5] as usize..][..row[6] as usize];
            to_mask = output.drawable(row, self.has_mask(index), name);
            output.hierarchy(row, own);
        }
    }
}

/// Writes a file of the rows to the start of the output; gives its length.
pub fn write(
    width: u32,
    height: u32,
    base: u32,
    table: &[u32],
    names: &[u8],
    pixels: &[u8],
    output: &mut [u8],
) -> Result<usize, Refusal> {
    let lent = Lent {
        canvas: [width, height],
        base,
        rows: rows(table)?,
        names,
        pixels,
    };
    lent.check()?;
    let bound = lent.bound();
    if bound <= output.len().min(FILE_LIMIT) {
        return Ok(lent.write(output));
    }
    let mut file = vec![0; bound];
    let length = lent.write(&mut file);
    match output.get_mut(..length) {
        Some(start) if length <= FILE_LIMIT => {
            start.copy_from_slice(&file[..length]);
            Ok(length)
        }
        _ => Err(Fault::OutputTooShort.at(0)),
    }
}
