//! A drawable decoded: each tile into a buffer of its own, and its lines copied
//! from there.

use crate::pointers::{first_bad, pointer};
use crate::row::{Row, is_side, pixels_length, rows, tile_count};
use crate::tile::{SIDE, decode_tile};
use crate::{FILE_LIMIT, Fault, Refusal};

/// A usable row, and the pointers of its level, of `N` bytes each.
struct Drawable<'a, const N: usize> {
    width: usize,
    height: usize,
    depth: usize,
    place: usize,
    pointers: &'a [[u8; N]],
    closing: [u8; N],
}

impl<'a, const N: usize> Drawable<'a, N> {
    /// None where the row is unusable.
    fn new(file: &'a [u8], row: &Row) -> Option<Self> {
        let &[kind, width, height, depth, _, _, _, _, place, count, ..] = row;
        let is_usable = (1..=3).contains(&kind)
            && is_side(width)
            && is_side(height)
            && (1..=4).contains(&depth)
            && count == tile_count(width, height);
        if !is_usable {
            return None;
        }
        let [width, height, depth, place] = [width, height, depth, place].map(|n| n as usize);
        let (pointers, _) = file.get(place..)?.as_chunks();
        let (&closing, pointers) = pointers.get(..=count as usize)?.split_last()?;
        Some(Drawable {
            width,
            height,
            depth,
            place,
            pointers,
            closing,
        })
    }

    /// The place of the lowest bad pointer, which may be the closing one, if there
    /// is one.
    fn bad_pointer(&self, file_length: usize) -> Option<usize> {
        let closing = (self.closing != [0; N]).then_some(self.pointers.len());
        let bad = first_bad(self.pointers, file_length).or(closing);
        bad.map(|index| self.place + N * index)
    }

    /// The window of a tile; longer ones are cut where they are decoded.
    fn window(&self, file: &'a [u8], tile: usize) -> &'a [u8] {
        let place = |bytes| pointer(bytes) as usize;
        let end = self.pointers.get(tile + 1).map_or(file.len(), place);
        &file[place(&self.pointers[tile])..end]
    }

    /// Decodes all tiles; gives how many are marked.
    fn decode(
        &self,
        file: &[u8],
        compression: u32,
        pixels: &mut [u8],
        marks: &mut [u8],
    ) -> Result<usize, Refusal> {
        let mut scratch = [0; SIDE * SIDE * 4];
        let across = self.width.div_ceil(SIDE);
        let mut marked = 0;
        for (tile, mark) in marks.iter_mut().enumerate() {
            let (left, top) = (tile % across * SIDE, tile / across * SIDE);
            let width = SIDE.min(self.width - left);
            let height = SIDE.min(self.height - top);
            let bytes = &mut scratch[..width * height * self.depth];
            let window = self.window(file, tile);
            let [w, h, d] = [width, height, self.depth].map(|side| side as u32);
            *mark = decode_tile(window, w, h, d, compression, bytes)?.mark as u8;
            marked += usize::from(*mark != 0);
            let lines = &mut pixels[top * self.width * self.depth..];
            self.put_lines(bytes, width * self.depth, lines, left * self.depth);
        }
        Ok(marked)
    }

    /// Copies a tile's lines, of so many bytes, into lines of the drawable, from
    /// a place in each.
    fn put_lines(&self, bytes: &[u8], length: usize, lines: &mut [u8], place: usize) {
        let lines = lines.chunks_mut(self.width * self.depth);
        for (line, bytes) in lines.zip(bytes.chunks(length)) {
            line[place..][..length].copy_from_slice(bytes);
        }
    }
}

/// Decodes the drawable of a row whose pointers have `N` bytes.
fn decode_row<const N: usize>(
    file: &[u8],
    row: &Row,
    compression: u32,
    pixels: &mut [u8],
    marks: &mut [u8],
) -> Result<usize, Refusal> {
    let drawable = Drawable::<N>::new(file, row).ok_or(Fault::Unusable.at(0))?;
    Fault::WrongLength.unless(pixels.len() == pixels_length(row))?;
    Fault::WrongLength.unless(marks.len() == drawable.pointers.len())?;
    match drawable.bad_pointer(file.len()) {
        Some(place) => Err(Fault::BadTilePointer.at(place)),
        None => drawable.decode(file, compression, pixels, marks),
    }
}

/// Decodes the drawable of a row into its pixels, and a mark for each tile;
/// gives how many tiles are marked. Neither table nor compression nor pointer
/// size is trusted.
pub fn decode(
    file: &[u8],
    table: &[u32],
    row: u32,
    compression: u32,
    pointer_size: u32,
    pixels: &mut [u8],
    marks: &mut [u8],
) -> Result<usize, Refusal> {
    let rows = rows(table)?;
    Fault::FileTooLong.unless(file.len() <= FILE_LIMIT)?;
    Fault::Unusable.unless(compression <= 1)?;
    let row = rows.get(row as usize).ok_or(Fault::Unusable.at(0))?;
    match pointer_size {
        4 => decode_row::<4>(file, row, compression, pixels, marks),
        8 => decode_row::<8>(file, row, compression, pixels, marks),
        _ => Err(Fault::Unusable.at(0)),
    }
}
