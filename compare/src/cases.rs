//! Random cases for comparing the reference with the library.

pub mod decode;
pub mod drawable;
pub mod encode;

use crate::random::Random;

/// Counts at which the encoding changes its form, and their neighbours.
pub const NOTABLE_COUNTS: [usize; 11] = [1, 2, 3, 126, 127, 128, 129, 255, 256, 257, 4096];

/// The sides and depth of a tile.
#[derive(Clone, Copy, Debug, PartialEq, Eq)]
pub struct Shape {
    pub width: u32,
    pub height: u32,
    pub depth: u32,
}

impl Shape {
    pub fn new(width: u32, height: u32, depth: u32) -> Self {
        Shape {
            width,
            height,
            depth,
        }
    }

    /// A usable shape; small tiles and whole ones come more often.
    pub fn random(random: &mut Random) -> Self {
        let (width, height) = match random.below(10) {
            0 => (64, 64),
            1..=4 => (random.between(1, 4), random.between(1, 4)),
            5 | 6 => (random.between(1, 16), random.between(1, 16)),
            7 => (64, random.between(1, 64)),
            8 => (random.between(1, 64), 64),
            _ => (random.between(1, 64), random.between(1, 64)),
        };
        Shape::new(width as u32, height as u32, random.between(1, 4) as u32)
    }

    /// Bytes in one stream.
    pub fn stream_length(self) -> usize {
        (self.width * self.height) as usize
    }

    /// Bytes in all pixels.
    pub fn pixels_length(self) -> usize {
        self.stream_length() * self.depth as usize
    }

    /// The pixels whose streams, one after the other, are `streams`.
    pub fn interleave(self, streams: &[u8]) -> Vec<u8> {
        let planes: Vec<&[u8]> = streams.chunks(self.stream_length()).collect();
        (0..self.stream_length())
            .flat_map(|i| planes.iter().map(move |plane| plane[i]))
            .collect()
    }

    /// The shape with at least one of its three numbers made unusable.
    fn spoiled(mut self, random: &mut Random) -> Self {
        let which = random.between(1, 7);
        if which & 1 != 0 {
            self.width = unusable(random, self.width, 64);
        }
        if which & 2 != 0 {
            self.height = unusable(random, self.height, 64);
        }
        if which & 4 != 0 {
            self.depth = unusable(random, self.depth, 4);
        }
        self
    }
}

/// A number that is 0 or above `limit`: just outside, one that would pass if
/// its high bits were lost, or one so large that products wrap around.
fn unusable(random: &mut Random, usable: u32, limit: u32) -> u32 {
    match random.below(8) {
        0 | 1 => 0,
        2 | 3 => limit + 1,
        4 => usable + 256,
        5 => usable + 65_536,
        6 => random.pick(&[255, 65_535, 65_536, 1 << 31, u32::MAX - 1]),
        _ => u32::MAX,
    }
}

/// A length other than `right`: near it, nothing at all, or anything.
pub fn wrong_length(random: &mut Random, right: usize) -> usize {
    let length = match random.below(5) {
        0 => right - 1,
        1 => right + 1,
        2 => 0,
        3 => right * 2,
        _ => random.below(right * 2),
    };
    if length == right { right + 1 } else { length }
}

/// A pixel buffer's length for an unusable shape made from `shape`: the right
/// one for the unusable numbers (as 32-bit products, which may wrap around) if
/// that is small, or another.
fn length_when_spoiled(random: &mut Random, shape: Shape, spoiled: Shape) -> usize {
    let area = spoiled.width.wrapping_mul(spoiled.height);
    match (random.below(4), area.wrapping_mul(spoiled.depth)) {
        (0 | 1, product @ 0..=20_000) => product as usize,
        (2, _) => wrong_length(random, shape.pixels_length()),
        _ => shape.pixels_length(),
    }
}

/// A count from 1 to `most`, often a notable one or `most` itself.
fn random_count(random: &mut Random, most: usize) -> usize {
    match random.below(4) {
        0 => random.pick(&NOTABLE_COUNTS).min(most),
        1 if most <= 300 => most,
        1 => random.between(1, 300),
        _ => random.between(1, most),
    }
}
