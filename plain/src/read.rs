//! A file read: rows are written straight into the table, and nothing is
//! allocated.

mod cursor;
mod property;

use crate::row::{
    APPLY_MASK, CHANNEL, DEPTHS, LAYER, MASK, Row, VISIBLE, name_flag, rows_mut, tile_count,
};
use crate::{FILE_LIMIT, Fault, Refusal};
use cursor::{Cursor, Read};
use property::{drawable_list, image_list};

/// What a file that is accepted says of the image, and how many rows it has.
#[derive(Clone, Copy, Debug, PartialEq, Eq)]
pub struct Image {
    pub width: u32,
    pub height: u32,
    pub base: u32,
    pub version: u32,
    pub compression: u32,
    pub rows: usize,
    /// How many bytes a pointer has.
    pub pointer_size: u32,
}

/// The precision of the images that are read: a byte for each sample, with
/// gamma.
const EIGHT_BIT_GAMMA: u32 = 150;

/// Reads the first 14 bytes; gives the version.
fn version(cursor: &mut Cursor<4>) -> Read<u32> {
    if cursor.bytes(9)? != b"gimp xcf " {
        return Err(cursor.refusal(Fault::NotXcf, 9));
    }
    match cursor.bytes(5)? {
        b"file\0" => Ok(0),
        b"v001\0" => Ok(1),
        b"v002\0" => Ok(2),
        b"v003\0" => Ok(3),
        b"v011\0" => Ok(11),
        _ => Err(cursor.refusal(Fault::UnknownVersion, 5)),
    }
}

/// Reads the image's fields up to its list, and then all else: from version 11
/// on pointers have 8 bytes.
fn image(file: &[u8], rows: &mut [Row]) -> Read<Image> {
    let mut cursor = Cursor::<4>::at(file, 0)?;
    let version = version(&mut cursor)?;
    let [width, height] = [cursor.side()?, cursor.side()?];
    let most = if version == 0 { 1 } else { 2 };
    let base = cursor.tested_word(Fault::BadBase, |base| base <= most)?;
    let image = Image {
        width,
        height,
        base,
        version,
        compression: 0,
        rows: 0,
        pointer_size: 0,
    };
    if version < 11 {
        return Reader::new(file, rows).structures(cursor, image);
    }
    cursor.tested_word(Fault::BadPrecision, |word| word == EIGHT_BIT_GAMMA)?;
    let cursor = cursor.with_pointers::<8>();
    Reader::new(file, rows).structures(cursor, image)
}

/// A file whose pointers have `N` bytes, and the rows of which some are used.
struct Reader<'a, const N: usize> {
    file: &'a [u8],
    rows: &'a mut [Row],
    used: usize,
}

impl<'a, const N: usize> Reader<'a, N> {
    fn new(file: &'a [u8], rows: &'a mut [Row]) -> Self {
        Reader {
            file,
            rows,
            used: 0,
        }
    }

    /// Reads the image from its list on, and then its drawables.
    fn structures(mut self, mut cursor: Cursor<N>, image: Image) -> Read<Image> {
        let compression = image_list(&mut cursor, image.base)?;
        let (mut layers, mut channels) = ([0; 48], [0; 32]);
        let layers = cursor.pointers(&mut layers)?;
        let channels = cursor.pointers(&mut channels)?;
        for &place in layers {
            self.layer(place, image.base)?;
        }
        let sides = [image.width, image.height];
        for &place in channels {
            self.channel(CHANNEL, place, sides, [0, 0], self.used)?;
        }
        Ok(Image {
            compression,
            rows: self.used,
            pointer_size: N as u32,
            ..image
        })
    }

    /// Reads a layer and then its mask, if it has one.
    fn layer(&mut self, place: u64, base: u32) -> Read<()> {
        let mut cursor = Cursor::<N>::at(self.file, place)?;
        let sides = [cursor.side()?, cursor.side()?];
        let kind = cursor.tested_word(Fault::Disagrees, |kind| kind <= 5 && kind / 2 == base)?;
        let owner = self.used;
        let row = &mut self.rows[owner];
        let depth = DEPTHS[kind as usize];
        start_row(row, LAYER, sides, [depth, kind], owner);
        row[11] = VISIBLE | APPLY_MASK;
        let pointer = fields(&mut cursor, row)?;
        let mask = cursor.pointer()?;
        if mask == 0 {
            row[11] &= !APPLY_MASK;
        }
        hierarchy::<N>(self.file, pointer, row)?;
        let offsets = [row[12], row[13]];
        self.used += 1;
        match mask {
            0 => Ok(()),
            _ => self.channel(MASK, mask, sides, offsets, owner),
        }
    }

    fn channel(
        &mut self,
        kind: u32,
        place: u64,
        sides: [u32; 2],
        offsets: [u32; 2],
        owner: usize,
    ) -> Read<()> {
        let mut cursor = Cursor::<N>::at(self.file, place)?;
        cursor.owned_side(sides[0])?;
        cursor.owned_side(sides[1])?;
        let row = &mut self.rows[self.used];
        start_row(row, kind, sides, [1, 2], owner);
        [row[12], row[13]] = offsets;
        let pointer = fields(&mut cursor, row)?;
        hierarchy::<N>(self.file, pointer, row)?;
        self.used += 1;
        Ok(())
    }
}

/// Makes a row what it is without properties; `form` is depth and type.
fn start_row(row: &mut Row, kind: u32, sides: [u32; 2], form: [u32; 2], owner: usize) {
    row.fill(0);
    row[0] = kind;
    [row[1], row[2]] = sides;
    [row[3], row[4]] = form;
    row[10] = 255;
    row[15] = owner as u32;
}

/// Reads a drawable's fields from its name on; gives the hierarchy pointer.
fn fields<const N: usize>(cursor: &mut Cursor<N>, row: &mut Row) -> Read<u64> {
    // The length word comes first.
    row[5] = cursor.place() as u32 + 4;
    let name = cursor.name()?;
    row[6] = name.len() as u32;
    row[7] = cursor.place() as u32;
    row[11] |= name_flag(name);
    drawable_list(cursor, row)?;
    cursor.nonzero_pointer()
}

/// Reads a drawable's hierarchy and level.
fn hierarchy<const N: usize>(file: &[u8], place: u64, row: &mut Row) -> Read<()> {
    let [_, width, height, depth, ..] = *row;
    let mut cursor = Cursor::<N>::at(file, place)?;
    cursor.equal_words(&[width, height, depth])?;
    let level = cursor.nonzero_pointer()?;
    while cursor.pointer()? != 0 {}
    let mut cursor = Cursor::<N>::at(file, level)?;
    cursor.equal_words(&[width, height])?;
    let count = tile_count(width, height);
    [row[8], row[9]] = [cursor.place() as u32, count];
    cursor.tile_pointers(count as usize)
}

/// Reads a file into a table; what the rows leave of it is cleared, or all of
/// it where the file itself is refused.
pub fn read(file: &[u8], table: &mut [u32]) -> Result<Image, Refusal> {
    let rows = rows_mut(table)?;
    Fault::FileTooLong.unless(file.len() <= FILE_LIMIT)?;
    let image = image(file, rows);
    let used = image.map_or(0, |image| image.rows);
    rows[used..].as_flattened_mut().fill(0);
    image
}
