//! Random pictures that a writer accepts, each with the file that is known
//! from how it was made.

use super::{Kind, Known, TableCase};
use crate::answer::{Row, WriteAnswer};
use crate::cases::Shape;
use crate::cases::encode::random_pixels;
use crate::files::drawable::{tile_count, tile_shape};
use crate::files::laid::{byte_property, property};
use crate::files::{
    DEPTHS, DrawableFields, ImageFields, Layer, random_sides, table_of, write_file,
};
use crate::names::{name_flag, random_name};
use crate::random::Random;
use crate::tile;

/// A row, its pixels, and its tiles as they are written.
struct Drawable {
    row: Row,
    pixels: Vec<u8>,
    tiles: Vec<Vec<u8>>,
}

/// All that a file is written from.
pub struct Picture {
    sides: [u32; 2],
    base: u32,
    /// Whether the drawables are many, and therefore small.
    is_crowded: bool,
    names: Vec<u8>,
    drawables: Vec<Drawable>,
}

impl Picture {
    /// A picture of a few drawables, or seldom of many, up to as many as there
    /// may be.
    pub fn random(random: &mut Random) -> Self {
        let (layers, channels) = match random.below(60) {
            0 => (48, 32),
            1 => (random.between(0, 48), random.between(0, 32)),
            _ => (random.pick(&[0, 1, 1, 2, 3]), random.pick(&[0, 0, 1, 1, 2])),
        };
        let is_crowded = layers + channels > 5;
        let all_masked = random.one_in(4);
        let mut picture = Picture {
            sides: drawable_sides(random, is_crowded),
            base: random.below(2) as u32,
            is_crowded,
            names: random_names(random),
            drawables: Vec::new(),
        };
        for _ in 0..layers {
            let has_mask = all_masked || random.one_in(2);
            picture.add_layer(random, has_mask);
        }
        for _ in 0..channels {
            let mut row = picture.row(random, 3, picture.sides, 2);
            row[15] = picture.drawables.len() as u32;
            picture.add(random, row);
        }
        picture.set_once(random, 8, &[1]);
        picture.set_once(random, 8, &[2, 3]);
        picture.set_once(random, 4, &[2, 3]);
        picture
    }

    fn add_layer(&mut self, random: &mut Random, has_mask: bool) {
        let sides = match random.below(2) {
            0 => self.sides,
            _ => drawable_sides(random, self.is_crowded),
        };
        let kind = 2 * self.base + random.below(2) as u32;
        let owner = self.drawables.len() as u32;
        let mut row = self.row(random, 1, sides, kind);
        if has_mask && random.one_in(2) {
            row[11] |= 2;
        }
        let any = random.word() as u32;
        row[12..].copy_from_slice(&[
            random.pick(&[0, 5, any, u32::MAX]),
            random.pick(&[0, 1 << 31, any]),
            random.below(22) as u32,
            owner,
        ]);
        self.add(random, row);
        if has_mask {
            let mut mask = self.row(random, 2, sides, 2);
            mask[12..].copy_from_slice(&[row[12], row[13], 0, owner]);
            self.add(random, mask);
        }
    }

    /// A row without offsets, mode and owner, and with no flag but those of
    /// being visible and of its name.
    fn row(&self, random: &mut Random, kind: u32, sides: [u32; 2], layer_type: u32) -> Row {
        let [width, height] = sides;
        let shape = Shape::new(width, height, DEPTHS[layer_type as usize]);
        let [name, name_count] = random_part(random, self.names.len());
        let name_flag = name_flag(&self.names[name..][..name_count]);
        let any = random.below(256) as u32;
        [
            kind,
            width,
            height,
            shape.depth,
            layer_type,
            name as u32,
            name_count as u32,
            0,
            0,
            tile_count(shape) as u32,
            random.pick(&[0, 255, any]),
            random.below(2) as u32 + name_flag,
            0,
            0,
            0,
            0,
        ]
    }

    /// Adds a drawable with random pixels, made tile by tile.
    fn add(&mut self, random: &mut Random, row: Row) {
        let shape = Shape::new(row[1], row[2], row[3]);
        let mut drawable = Drawable {
            row,
            pixels: vec![0; shape.pixels_length()],
            tiles: Vec::new(),
        };
        for index in 0..tile_count(shape) {
            let tile_shape = tile_shape(shape, index);
            let tile = random_pixels(random, tile_shape);
            paste(&mut drawable.pixels, shape, &tile, tile_shape, index);
            let encoded = tile::encode_pixels(&tile, shape.depth as usize);
            drawable.tiles.push(encoded);
        }
        self.drawables.push(drawable);
    }

    /// Sets a flag of one drawable of the kinds, or of none.
    fn set_once(&mut self, random: &mut Random, flag: u32, kinds: &[u32]) {
        let rows = self.drawables.iter_mut().map(|drawable| &mut drawable.row);
        let mut rows: Vec<&mut Row> = rows.filter(|row| kinds.contains(&row[0])).collect();
        let index = random.below(rows.len() + 1);
        if let Some(row) = rows.get_mut(index) {
            row[11] |= flag;
        }
    }

    /// The file, put together from the drawables and not from the table.
    fn file(&self) -> Vec<u8> {
        let is_new = |drawable: &Drawable| drawable.row[14] >= 19;
        let image = ImageFields {
            version: match self.drawables.iter().any(is_new) {
                true => 2,
                false => 0,
            },
            sides: self.sides,
            base: self.base,
            list: byte_property(17, &[1]),
        };
        let (mut layers, mut channels) = (Vec::new(), Vec::new());
        let mut drawables = self.drawables.iter().peekable();
        while let Some(drawable) = drawables.next() {
            if drawable.row[0] == 3 {
                channels.push(self.fields(drawable, false));
                continue;
            }
            let mask = drawables.next_if(|next| next.row[0] == 2);
            layers.push(Layer {
                kind: drawable.row[4],
                fields: self.fields(drawable, mask.is_some()),
                mask: mask.map(|mask| self.fields(mask, false)),
            });
        }
        write_file(&image, &layers, &channels)
    }

    fn fields(&self, drawable: &Drawable, has_mask: bool) -> DrawableFields {
        let row = &drawable.row;
        let (name, name_count) = (row[5] as usize, row[6] as usize);
        DrawableFields {
            sides: [row[1], row[2]],
            name: self.names[name..name + name_count].to_vec(),
            list: property_list(row, has_mask),
            tiles: drawable.tiles.clone(),
        }
    }

    /// A call that writes the picture to an output that is long enough.
    pub fn case(&self, random: &mut Random) -> TableCase {
        let file = self.file();
        let spare = random.pick(&[0, 0, 1, 3, 50, 3_000]);
        let rows: Vec<Row> = self.drawables.iter().map(|drawable| drawable.row).collect();
        let pixels = self.drawables.iter().map(|drawable| &drawable.pixels[..]);
        TableCase {
            kind: Kind::Valid,
            width: self.sides[0],
            height: self.sides[1],
            base: self.base,
            table: table_of(&rows),
            names: self.names.clone(),
            pixels: pixels.collect::<Vec<&[u8]>>().concat(),
            output: random.bytes(file.len() + spare),
            known: Some(Known {
                answer: WriteAnswer::written(file.len()),
                file,
            }),
        }
    }
}

/// The property list of a row without its end.
fn property_list(row: &Row, has_mask: bool) -> Vec<u8> {
    let flag = |flag: u32| u32::from(row[11] & flag != 0);
    let if_set = |set: u32, kind: u32| property(kind, &[]).repeat(flag(set) as usize);
    let shared = [property(6, &[row[10]]), property(8, &[flag(1)])].concat();
    if row[0] != 1 {
        return [if_set(4, 4), if_set(8, 3), shared].concat();
    }
    [
        if_set(8, 2),
        shared,
        property(11, &[flag(2)]).repeat(usize::from(has_mask)),
        property(7, &[row[14]]),
        property(15, &[row[12], row[13]]),
    ]
    .concat()
}

/// Copies a tile to its place among the pixels of a drawable.
fn paste(pixels: &mut [u8], shape: Shape, tile: &[u8], tile_shape: Shape, index: usize) {
    let [width, depth, tile_width] =
        [shape.width, shape.depth, tile_shape.width].map(|number| number as usize);
    let across = width.div_ceil(64);
    let (left, top) = (index % across * 64, index / across * 64);
    for (line, bytes) in tile.chunks(tile_width * depth).enumerate() {
        let start = ((top + line) * width + left) * depth;
        pixels[start..start + bytes.len()].copy_from_slice(bytes);
    }
}

/// Sides of up to 16 tiles, or of one small tile.
fn drawable_sides(random: &mut Random, is_crowded: bool) -> [u32; 2] {
    let (width, height) = random_sides(random);
    let most = if is_crowded { 5 } else { 200 };
    [width, height].map(|side| side.min(most))
}

/// Bytes that names are taken from.
fn random_names(random: &mut Random) -> Vec<u8> {
    let any = random.below(3_000);
    let length = random.pick(&[0, 1, 30, 1_024, 1_025, any]);
    random_name(random, length)
}

/// The place of a name among so many bytes, and the number of its own.
fn random_part(random: &mut Random, length: usize) -> [usize; 2] {
    let any = random.between(0, 1_024);
    let count = random.pick(&[0, 0, 1, 7, 20, 1_024, any]).min(length);
    let last = length - count;
    let any = random.between(0, last);
    [random.pick(&[0, last, any]), count]
}
