//! The image structure, and the walk from it to every drawable.

use std::ops::Range;

use super::Refusal;
use super::cursor::{Cursor, File};
use super::drawable::{Drawable, Kind};
use super::property::image_list;
use super::version::Version;
use crate::answer::{BAD_BASE, BAD_PRECISION, NOT_XCF, Row, TOO_MANY, UNKNOWN_VERSION};

const MAGIC: &[u8] = b"gimp xcf ";

/// The precision of a byte for each sample, with gamma.
const EIGHT_BIT_GAMMA: u32 = 150;

const MOST_LAYERS: usize = 48;
const MOST_CHANNELS: usize = 32;

/// All that a file gives.
pub struct Image {
    pub width: u32,
    pub height: u32,
    pub base: u32,
    pub version: Version,
    pub compression: u32,
    pub rows: Vec<Row>,
    /// The structures, in the order of the walk.
    pub passed: Vec<Range<usize>>,
}

impl Image {
    pub fn read(bytes: &[u8]) -> Result<Image, Refusal> {
        let mut cursor = start(bytes)?;
        let file = cursor.file;
        let width = cursor.side()?.value;
        let height = cursor.side()?.value;
        let base = base(&mut cursor)?;
        if file.version.has_precision() {
            precision(&mut cursor)?;
        }
        let mut image = Image {
            width,
            height,
            base,
            version: file.version,
            compression: image_list(&mut cursor, base)?,
            rows: Vec::new(),
            passed: Vec::new(),
        };
        let layers = pointers(&mut cursor, MOST_LAYERS)?;
        let channels = pointers(&mut cursor, MOST_CHANNELS)?;
        image.passed.push(cursor.passed());
        for place in layers {
            image.add_layer(file, place)?;
        }
        for place in channels {
            image.add_channel(file, place)?;
        }
        Ok(image)
    }

    /// Reads a layer and then its mask, if it has one.
    fn add_layer(&mut self, file: File, place: u64) -> Result<(), Refusal> {
        let owner = self.rows.len();
        let layer = Drawable::layer(file, place, self.base)?;
        let offsets = layer.properties.offsets;
        self.add_row(file, &layer, Kind::Layer, offsets, owner)?;
        if layer.mask != 0 {
            let mask = Drawable::channel(file, layer.mask, [layer.width, layer.height])?;
            self.add_row(file, &mask, Kind::Mask, offsets, owner)?;
        }
        Ok(())
    }

    fn add_channel(&mut self, file: File, place: u64) -> Result<(), Refusal> {
        let channel = Drawable::channel(file, place, [self.width, self.height])?;
        self.add_row(file, &channel, Kind::Channel, [0, 0], self.rows.len())
    }

    /// Follows a drawable's hierarchy pointer and adds its row.
    fn add_row(
        &mut self,
        file: File,
        drawable: &Drawable,
        kind: Kind,
        offsets: [u32; 2],
        owner: usize,
    ) -> Result<(), Refusal> {
        let tiles = drawable.tiles(file)?;
        self.rows
            .push(drawable.row(kind, tiles.first, offsets, owner));
        self.passed
            .extend([drawable.passed.clone(), tiles.hierarchy, tiles.level]);
        Ok(())
    }
}

/// The cursor behind the first 14 bytes, which say the version.
fn start(bytes: &[u8]) -> Result<Cursor<'_>, Refusal> {
    // What is read here does not depend on it.
    let version = Version::default();
    let mut cursor = Cursor::new(File { bytes, version }, 0);
    if cursor.bytes(MAGIC.len())? != MAGIC {
        return Err(Refusal {
            number: NOT_XCF,
            place: 0,
        });
    }
    let place = cursor.place();
    let tag = cursor.bytes(5)?;
    cursor.file.version = Version::of_tag(tag).ok_or(Refusal {
        number: UNKNOWN_VERSION,
        place,
    })?;
    Ok(cursor)
}

/// Reads the base type: 0 RGB, 1 greyscale, 2 indexed.
fn base(cursor: &mut Cursor) -> Result<u32, Refusal> {
    let base = cursor.word()?;
    let most = cursor.file.version.most_base();
    Ok(base.tested(base.value <= most, BAD_BASE)?.value)
}

/// Reads the precision.
fn precision(cursor: &mut Cursor) -> Result<(), Refusal> {
    let precision = cursor.word()?;
    precision.tested(precision.value == EIGHT_BIT_GAMMA, BAD_PRECISION)?;
    Ok(())
}

/// Reads pointers up to a 0; there may be at most `most`.
fn pointers(cursor: &mut Cursor, most: usize) -> Result<Vec<u64>, Refusal> {
    let mut pointers = Vec::new();
    loop {
        let pointer = cursor.pointer()?;
        if pointer.value == 0 {
            return Ok(pointers);
        }
        pointer.tested(pointers.len() < most, TOO_MANY)?;
        pointers.push(pointer.value);
    }
}
