//! Random cases for encoding a tile.

use super::{NOTABLE_COUNTS, Shape, length_when_spoiled, wrong_length};
use crate::random::Random;
use crate::tile;

/// How a case was made.
#[derive(Clone, Copy, Debug, PartialEq, Eq)]
pub enum Kind {
    /// An output exactly long enough.
    Exact,
    /// An output longer than the encoding.
    Longer,
    /// An output shorter than the encoding.
    TooShort,
    /// An unusable number, or pixels of the wrong length.
    Refused,
}

/// One call of the encoder.
#[derive(Clone, Debug)]
pub struct EncodeCase {
    pub kind: Kind,
    pub pixels: Vec<u8>,
    pub width: u32,
    pub height: u32,
    pub depth: u32,
    /// The lent output as it is before the call.
    pub output: Vec<u8>,
}

impl EncodeCase {
    /// The case in a line, with only the first bytes of the pixels.
    pub fn summary(&self) -> String {
        format!(
            "{:?}: sides {} and {}, depth {}, {} lent bytes, {} bytes of pixels {:02X?}",
            self.kind,
            self.width,
            self.height,
            self.depth,
            self.output.len(),
            self.pixels.len(),
            &self.pixels[..self.pixels.len().min(40)]
        )
    }
}

/// A case of any kind and shape.
pub fn random_case(random: &mut Random) -> EncodeCase {
    let kind = match random.below(8) {
        0 | 1 => Kind::Exact,
        2 | 3 => Kind::Longer,
        4 | 5 => Kind::TooShort,
        _ => Kind::Refused,
    };
    let shape = Shape::random(random);
    case(random, kind, shape)
}

/// A case of the kind; a refused one has `shape` only where it is not spoiled.
pub fn case(random: &mut Random, kind: Kind, shape: Shape) -> EncodeCase {
    let pixels = random_pixels(random, shape);
    let needed = tile::encode_pixels(&pixels, shape.depth as usize).len();
    let shorter = random.below(needed);
    let length = match kind {
        Kind::Exact => needed,
        Kind::Longer => needed + random.pick(&[1, 2, 3, 100, 5_000]),
        Kind::TooShort => random.pick(&[needed - 1, needed - 1, 0, shorter]),
        Kind::Refused => random.pick(&[needed, needed - 1, needed + 50, 0]),
    };
    let case = EncodeCase {
        kind,
        pixels,
        width: shape.width,
        height: shape.height,
        depth: shape.depth,
        output: random.bytes(length),
    };
    if kind == Kind::Refused {
        refused_case(random, case, shape)
    } else {
        case
    }
}

fn refused_case(random: &mut Random, mut case: EncodeCase, shape: Shape) -> EncodeCase {
    let length = if random.one_in(2) {
        wrong_length(random, shape.pixels_length())
    } else {
        let spoiled = shape.spoiled(random);
        (case.width, case.height, case.depth) = (spoiled.width, spoiled.height, spoiled.depth);
        length_when_spoiled(random, shape, spoiled)
    };
    case.pixels.resize(length, 0x55);
    case
}

/// Pixels whose streams are each made by `random_stream`.
pub fn random_pixels(random: &mut Random, shape: Shape) -> Vec<u8> {
    let streams: Vec<u8> = (0..shape.depth)
        .flat_map(|_| random_stream(random, shape.stream_length()))
        .collect();
    shape.interleave(&streams)
}

/// A stream of one of several makes.
pub fn random_stream(random: &mut Random, length: usize) -> Vec<u8> {
    match random.below(10) {
        0 => random.bytes(length),
        1 => vec![random.byte(); length],
        2 => alternating_stream(random, length),
        3 => few_values_stream(random, length),
        4 => hard_stream(length),
        _ => pieces_stream(random, length),
    }
}

/// Two bytes by turns.
fn alternating_stream(random: &mut Random, length: usize) -> Vec<u8> {
    let pair = [random.byte(), random.byte()];
    pair.into_iter().cycle().take(length).collect()
}

/// Bytes of two or three values, with many pairs and short runs.
fn few_values_stream(random: &mut Random, length: usize) -> Vec<u8> {
    let values = random.between(2, 3);
    (0..length).map(|_| random.below(values) as u8).collect()
}

/// The stream whose encoding is longest: 128 bytes to copy, then three equal
/// ones, over and over.
pub fn hard_stream(length: usize) -> Vec<u8> {
    (0..128)
        .chain([200, 200, 200])
        .cycle()
        .take(length)
        .collect()
}

/// Two streams: `count` bytes to copy and then equal ones, and `count` equal
/// bytes and then some to copy.
pub fn split_streams(length: usize, count: usize) -> [Vec<u8>; 2] {
    let unequal = |i: usize| (i % 100) as u8;
    let copy_first = (0..length).map(|i| if i < count { unequal(i) } else { 200 });
    let run_first = (0..length).map(|i| if i < count { 200 } else { unequal(i) });
    [copy_first.collect(), run_first.collect()]
}

/// Runs and noise, mostly of notable lengths, one after the other.
fn pieces_stream(random: &mut Random, length: usize) -> Vec<u8> {
    let mut stream: Vec<u8> = Vec::new();
    while stream.len() < length {
        let count = match random.below(3) {
            0 => random.between(1, 300),
            _ => random.pick(&NOTABLE_COUNTS),
        };
        if random.one_in(4) {
            stream.extend(random.bytes(count));
        } else {
            let previous = stream.last().copied().unwrap_or(0);
            let value = previous.wrapping_add(random.between(1, 255) as u8);
            stream.extend(std::iter::repeat_n(value, count));
        }
    }
    stream.truncate(length);
    stream
}
