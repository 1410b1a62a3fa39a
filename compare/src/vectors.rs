//! Test vectors for a program that runs the tile functions: its standard
//! input, and the standard output that the reference expects of it.
//!
//! A record of the input, with numbers high byte first: kind (0 decode a
//! tile, 1 encode a tile, 2 encode a stream), width, height, depth and
//! compression, a byte each; the length of the source and the length of the
//! lent buffer, two bytes each; the source (a window, pixels or a stream). The
//! lent buffer is filled with 0xAA before the call.

use std::fmt::Write;

use crate::answer::WINDOW_LIMIT;
use crate::cases::Shape;
use crate::cases::decode::{self, DecodeCase};
use crate::cases::encode::{self, EncodeCase};
use crate::random::Random;
use crate::tile;

const SEED: u64 = 0x7469_6C65_2076_6563;

/// The lent buffer's bytes before each call.
pub const FILLING: u8 = 0xAA;

pub const INPUT_LIMIT: usize = 130_000;
pub const SOURCE_LIMIT: usize = 24_600;
pub const LENT_LIMIT: usize = 20_000;

#[derive(Clone, Copy, Debug, PartialEq, Eq)]
pub enum Kind {
    Decode,
    Encode,
    EncodeStream,
}

/// One call: its bytes in the input, and its line of the output.
#[derive(Clone, Debug, PartialEq, Eq)]
pub struct Record {
    pub kind: Kind,
    pub width: u8,
    pub height: u8,
    pub depth: u8,
    pub compression: u8,
    pub source: Vec<u8>,
    pub lent: usize,
}

impl Record {
    fn decode(shape: Shape, window: &[u8]) -> Self {
        Record {
            kind: Kind::Decode,
            width: shape.width as u8,
            height: shape.height as u8,
            depth: shape.depth as u8,
            compression: 1,
            source: window.to_vec(),
            lent: shape.pixels_length(),
        }
    }

    fn encode(shape: Shape, pixels: &[u8], lent: usize) -> Self {
        Record {
            kind: Kind::Encode,
            compression: 0,
            lent,
            ..Record::decode(shape, pixels)
        }
    }

    fn encode_stream(stream: &[u8], lent: usize) -> Self {
        Record {
            kind: Kind::EncodeStream,
            width: 0,
            height: 0,
            depth: 0,
            compression: 0,
            source: stream.to_vec(),
            lent,
        }
    }

    /// The case as a record, if its numbers fit their bytes.
    fn from_decode_case(case: &DecodeCase) -> Option<Self> {
        Some(Record {
            kind: Kind::Decode,
            width: case.width.try_into().ok()?,
            height: case.height.try_into().ok()?,
            depth: case.depth.try_into().ok()?,
            compression: case.compression.try_into().ok()?,
            source: case.window.clone(),
            lent: case.pixels.len(),
        })
    }

    /// The case as a record, if its numbers fit their bytes.
    fn from_encode_case(case: &EncodeCase) -> Option<Self> {
        Some(Record {
            kind: Kind::Encode,
            width: case.width.try_into().ok()?,
            height: case.height.try_into().ok()?,
            depth: case.depth.try_into().ok()?,
            compression: 0,
            source: case.pixels.clone(),
            lent: case.output.len(),
        })
    }

    fn append_to(&self, input: &mut Vec<u8>) {
        assert!(self.source.len() <= SOURCE_LIMIT && self.lent <= LENT_LIMIT);
        input.push(self.kind as u8);
        input.extend([self.width, self.height, self.depth, self.compression]);
        input.extend((self.source.len() as u16).to_be_bytes());
        input.extend((self.lent as u16).to_be_bytes());
        input.extend_from_slice(&self.source);
    }

    /// The output's line for this record, by the reference.
    fn line(&self) -> String {
        let [width, height, depth, compression] =
            [self.width, self.height, self.depth, self.compression].map(u32::from);
        let mut lent = vec![FILLING; self.lent];
        match self.kind {
            Kind::Decode => {
                let a =
                    tile::decode_tile(&self.source, width, height, depth, compression, &mut lent);
                let sum = sum(&lent);
                format!(
                    "tile {} {} {} {} {} {sum}",
                    a.number, a.place, a.mark, a.consumed, a.operations
                )
            }
            Kind::Encode => {
                let a = tile::encode_tile(&self.source, width, height, depth, &mut lent);
                format!("write {} {} {} {}", a.number, a.place, a.length, sum(&lent))
            }
            Kind::EncodeStream => {
                let a = tile::encode_stream_to(&self.source, &mut lent);
                format!(
                    "stream {} {} {} {}",
                    a.number,
                    a.place,
                    a.length,
                    sum(&lent)
                )
            }
        }
    }
}

/// The sum over a lent buffer after a call.
pub fn sum(bytes: &[u8]) -> u32 {
    bytes
        .iter()
        .fold(0, |sum, &byte| (sum * 31 + u32::from(byte)) % 65_521)
}

/// The program's input and its expected output.
pub struct Vectors {
    pub records: usize,
    pub input: Vec<u8>,
    pub output: String,
}

pub fn build() -> Vectors {
    let mut random = Random::new(SEED);
    let mut records = examples();
    records.extend(notable_counts());
    records.extend(whole_tiles(&mut random));
    records.extend(degenerate_tiles(&mut random));
    records.extend(unusable_numbers());
    records.extend(small_decode_records(&mut random));
    records.extend(small_encode_records(&mut random));
    records.extend(streams(&mut random));
    let mut vectors = Vectors {
        records: records.len(),
        input: Vec::new(),
        output: String::new(),
    };
    for record in &records {
        record.append_to(&mut vectors.input);
        writeln!(vectors.output, "{}", record.line()).expect("a string takes all");
    }
    assert!(vectors.input.len() <= INPUT_LIMIT);
    vectors
}

/// The examples of the rules. No tile has 127 pixels, so the run of 127 is
/// followed by one more byte.
fn examples() -> Vec<Record> {
    let pixel = Shape::new(1, 1, 1);
    let pair = Shape::new(2, 1, 1);
    let two_rows = Shape::new(64, 2, 1);
    vec![
        Record::decode(pixel, &[0xFF, 0x2A]),
        Record::decode(pixel, &[0x00, 0x2A]),
        Record::decode(two_rows, &[0x7E, 0x05, 0xFF, 0x06]),
        Record::decode(two_rows, &[0x7F, 0x00, 0x80, 0x05]),
        Record::decode(pixel, &[0x80, 0x00, 0x00, 0xFF, 0x07]),
        Record::decode(pair, &[0x02, 0x09]),
        Record::decode(pair, &[0xFE, 0x01]),
        Record::decode(Shape::new(2, 1, 2), &[0x01, 0x10, 0xFE, 0x20, 0x30]),
        Record::encode(Shape::new(3, 1, 1), &[0xAA, 0xAA, 0xBB], 4),
        Record::encode(Shape::new(4, 1, 1), &[0x01, 0x02, 0x02, 0x02], 4),
        Record::decode(pixel, &[0xFF, 0xFF]),
        Record::encode(pixel, &[0xFF], 2),
    ]
}

/// Copies and runs of about 127 bytes, where short turns to long, encoded and
/// decoded.
fn notable_counts() -> Vec<Record> {
    let shape = Shape::new(64, 3, 1);
    let mut records = Vec::new();
    for count in [126, 127, 128, 129] {
        for stream in encode::split_streams(shape.stream_length(), count) {
            let encoding = tile::encode_stream(&stream);
            records.push(Record::encode(shape, &stream, encoding.len()));
            records.push(Record::decode(shape, &encoding));
        }
    }
    records
}

/// Tiles of 64 by 64 at each depth: good, cut short, overrunning in the last
/// stream, and encoded.
fn whole_tiles(random: &mut Random) -> Vec<Record> {
    let mut records = Vec::new();
    for depth in 1..=4 {
        let shape = Shape::new(64, 64, depth);
        let good: Vec<u8> = (0..depth).flat_map(|_| long_runs(random)).collect();
        let (_, cut) = good.split_last().expect("not empty");
        let mut overrunning: Vec<u8> = (1..depth).flat_map(|_| long_runs(random)).collect();
        overrunning.extend([0x7F, 0x10, 0x01, 0x09]);
        records.push(Record::decode(shape, &good));
        records.push(Record::decode(shape, cut));
        records.push(Record::decode(shape, &overrunning));
        let pixels = encode::random_pixels(random, shape);
        let needed = tile::encode_pixels(&pixels, depth as usize).len();
        let lent = random.pick(&[needed, needed + 1, needed + 200]);
        records.push(Record::encode(shape, &pixels, lent));
    }
    records
}

/// An encoded stream of 4,096 bytes, of few and long runs.
fn long_runs(random: &mut Random) -> Vec<u8> {
    let mut stream = Vec::new();
    while stream.len() < 4096 {
        let count = random.between(1, 1500);
        stream.extend(std::iter::repeat_n(random.byte(), count));
    }
    tile::encode_stream(&stream[..4096])
}

/// Tiles with many zero counts, two of them at the window limit.
fn degenerate_tiles(random: &mut Random) -> Vec<Record> {
    let mut lengths = vec![(WINDOW_LIMIT, 0), (WINDOW_LIMIT + 1, 3)];
    for _ in 0..20 {
        lengths.push((random.between(40, 90), random.below(4)));
    }
    lengths
        .into_iter()
        .filter_map(|(length, tail)| {
            Record::from_decode_case(&decode::degenerate_case(random, length, tail))
        })
        .collect()
}

/// Each number of a good call made unusable in turn, below and above.
fn unusable_numbers() -> Vec<Record> {
    let pixel = Shape::new(1, 1, 1);
    let decode = Record::decode(pixel, &[0xFF, 0x2A]);
    let encode = Record::encode(pixel, &[0x2A], 2);
    let mut records = Vec::new();
    for good in [&decode, &encode] {
        for side in [0, 65, 255] {
            let (mut wide, mut high) = (good.clone(), good.clone());
            wide.width = side;
            high.height = side;
            records.extend([wide, high]);
        }
        for depth in [0, 5, 255] {
            let mut deep = good.clone();
            deep.depth = depth;
            records.push(deep);
        }
    }
    for compression in [2, 255] {
        let mut compressed = decode.clone();
        compressed.compression = compression;
        records.push(compressed);
    }
    records
}

/// A small tile, or now and then one of 64 to 192 pixels of one byte.
fn small_shape(random: &mut Random) -> Shape {
    if random.one_in(10) {
        return Shape::new(64, random.between(1, 3) as u32, 1);
    }
    Shape::new(
        random.between(1, 5) as u32,
        random.between(1, 4) as u32,
        random.between(1, 4) as u32,
    )
}

fn is_small(record: &Record) -> bool {
    record.source.len() <= 250 && record.lent <= 2_000
}

fn small_decode_records(random: &mut Random) -> Vec<Record> {
    let wanted = [
        (decode::Kind::Valid, 70),
        (decode::Kind::Cut, 45),
        (decode::Kind::Overrun, 45),
        (decode::Kind::Noise, 20),
        (decode::Kind::Plain, 35),
        (decode::Kind::Refused, 35),
    ];
    let mut records = Vec::new();
    for (kind, count) in wanted {
        let end = records.len() + count;
        while records.len() < end {
            let shape = small_shape(random);
            let case = decode::case(random, kind, shape);
            records.extend(Record::from_decode_case(&case).filter(is_small));
        }
    }
    records
}

fn small_encode_records(random: &mut Random) -> Vec<Record> {
    let wanted = [
        (encode::Kind::Exact, 25),
        (encode::Kind::Longer, 20),
        (encode::Kind::TooShort, 25),
        (encode::Kind::Refused, 20),
    ];
    let mut records = Vec::new();
    for (kind, count) in wanted {
        let end = records.len() + count;
        while records.len() < end {
            let shape = small_shape(random);
            let case = encode::case(random, kind, shape);
            records.extend(Record::from_encode_case(&case).filter(is_small));
        }
    }
    records
}

/// Streams alone: the examples of 127 and 128 bytes, lengths at the limit and
/// above it, none at all, and random ones, with room, without and exactly.
fn streams(random: &mut Random) -> Vec<Record> {
    let mut streams = vec![vec![0x05; 127], vec![0x05; 128], Vec::new()];
    for length in [4_096, 4_097] {
        streams.push(encode::hard_stream(length));
    }
    for _ in 0..20 {
        let length = random.between(1, 200);
        streams.push(encode::random_stream(random, length));
    }
    let mut records = Vec::new();
    for stream in streams {
        let needed = tile::encode_stream(&stream).len();
        records.push(Record::encode_stream(&stream, needed));
        if stream.len() < 300 {
            records.push(Record::encode_stream(&stream, needed + 40));
            records.push(Record::encode_stream(&stream, needed.saturating_sub(1)));
        }
    }
    records
}
