//! Pictures put together row by row, for other programs to open what is
//! written of them.

use crate::answer::Row;
use crate::cases::Shape;
use crate::cases::encode::random_pixels;
use crate::files::drawable::tile_count;
use crate::files::{DEPTHS, table_of};
use crate::random::Random;
use crate::tables::{Kind, TableCase};

/// The flags of a row that a writer takes.
pub const VISIBLE: u32 = 1;
pub const APPLY_MASK: u32 = 2;
pub const SELECTION: u32 = 4;
pub const ACTIVE: u32 = 8;

/// What a drawable shows.
#[derive(Clone, Copy, Debug, PartialEq, Eq)]
pub enum Content {
    White,
    /// Any bytes.
    Noise,
    /// Streams of runs and copies.
    Mixed,
}

impl Content {
    fn pixels(self, random: &mut Random, shape: Shape) -> Vec<u8> {
        match self {
            Content::White => vec![255; shape.pixels_length()],
            Content::Noise => random.bytes(shape.pixels_length()),
            Content::Mixed => random_pixels(random, shape),
        }
    }
}

/// A picture that is written; each drawable comes behind the ones before it.
pub struct Picture {
    /// What its file is called.
    pub name: &'static str,
    pub sides: [u32; 2],
    pub base: u32,
    random: Random,
    rows: Vec<Row>,
    names: Vec<u8>,
    pixels: Vec<u8>,
}

impl Picture {
    /// A picture without drawables; `base` is 0 for RGB, 1 for greyscale.
    pub fn new(name: &'static str, sides: [u32; 2], base: u32) -> Self {
        let seed = name
            .bytes()
            .fold(0, |seed, byte| 31 * seed + u64::from(byte));
        Picture {
            name,
            sides,
            base,
            random: Random::new(seed),
            rows: Vec::new(),
            names: Vec::new(),
            pixels: Vec::new(),
        }
    }

    /// Adds a layer: opaque, visible, at the canvas's corner.
    pub fn layer(mut self, name: &str, sides: [u32; 2], has_alpha: bool, content: Content) -> Self {
        let layer_type = 2 * self.base + u32::from(has_alpha);
        self.add(1, name, sides, layer_type, content);
        self
    }

    /// Adds a visible mask to the last drawable, a layer.
    pub fn mask(mut self, name: &str, content: Content) -> Self {
        let layer = *self.last();
        self.add(2, name, [layer[1], layer[2]], 2, content);
        self.last()[12..].copy_from_slice(&[layer[12], layer[13], 0, layer[15]]);
        self
    }

    /// Adds a visible channel.
    pub fn channel(mut self, name: &str, content: Content) -> Self {
        self.add(3, name, self.sides, 2, content);
        self
    }

    /// Moves the last drawable, a layer.
    pub fn at(mut self, x: i32, y: i32) -> Self {
        self.last()[12..14].copy_from_slice(&[x as u32, y as u32]);
        self
    }

    pub fn opacity(mut self, opacity: u32) -> Self {
        self.last()[10] = opacity;
        self
    }

    pub fn flags(mut self, flags: u32) -> Self {
        self.last()[11] = flags;
        self
    }

    pub fn mode(mut self, mode: u32) -> Self {
        self.last()[14] = mode;
        self
    }

    fn last(&mut self) -> &mut Row {
        self.rows.last_mut().expect("a drawable")
    }

    fn add(&mut self, kind: u32, name: &str, sides: [u32; 2], layer_type: u32, content: Content) {
        let [width, height] = sides;
        let shape = Shape::new(width, height, DEPTHS[layer_type as usize]);
        let index = self.rows.len() as u32;
        let pixels = content.pixels(&mut self.random, shape);
        self.rows.push([
            kind,
            width,
            height,
            shape.depth,
            layer_type,
            self.names.len() as u32,
            name.len() as u32,
            0,
            0,
            tile_count(shape) as u32,
            255,
            1,
            0,
            0,
            0,
            index,
        ]);
        self.names.extend(name.bytes());
        self.pixels.extend(pixels);
    }

    /// The call that writes the picture, to an output that is long enough.
    pub fn case(&self) -> TableCase {
        TableCase {
            kind: Kind::Valid,
            width: self.sides[0],
            height: self.sides[1],
            base: self.base,
            table: table_of(&self.rows),
            names: self.names.clone(),
            pixels: self.pixels.clone(),
            output: vec![0; 2 * self.pixels.len() + 1_000 * (1 + self.rows.len())],
            known: None,
        }
    }

    /// The used rows.
    pub fn rows(&self) -> &[Row] {
        &self.rows
    }

    /// The pixels of each row.
    pub fn drawables(&self) -> Vec<&[u8]> {
        let mut rest = &self.pixels[..];
        let lengths = self.rows.iter().map(|row| row[1] * row[2] * row[3]);
        lengths
            .map(|length| {
                let (pixels, later) = rest.split_at(length as usize);
                rest = later;
                pixels
            })
            .collect()
    }
}
