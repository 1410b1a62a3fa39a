//! Random cases for decoding a tile, with the answer that is known from how
//! each case was made.

use super::{Shape, length_when_spoiled, random_count, unusable, wrong_length};
use crate::answer::{GOOD, OVERRUN, TOO_SOON, TileAnswer, UNUSABLE, WINDOW_LIMIT, WRONG_LENGTH};
use crate::random::Random;

/// How a case was made.
#[derive(Clone, Copy, Debug, PartialEq, Eq)]
pub enum Kind {
    /// An encoding of random operations, and a tail.
    Valid,
    /// An encoding cut short.
    Cut,
    /// An operation that runs over its stream's end, perhaps also cut short.
    Overrun,
    /// Random bytes, many of them opcodes of note.
    Noise,
    /// Encodings and windows about as long as the window limit, or longer.
    Limit,
    /// Plain windows.
    Plain,
    /// An unusable number, or a pixel buffer of the wrong length.
    Refused,
}

/// One call of the decoder.
#[derive(Clone, Debug)]
pub struct DecodeCase {
    pub kind: Kind,
    pub window: Vec<u8>,
    pub width: u32,
    pub height: u32,
    pub depth: u32,
    pub compression: u32,
    /// The lent pixels as they are before the call.
    pub pixels: Vec<u8>,
    /// What the call gives, unless the window is noise.
    pub known: Option<Known>,
}

impl DecodeCase {
    /// The case in a line, with only the window's first bytes.
    pub fn summary(&self) -> String {
        format!(
            "{:?}: sides {} and {}, depth {}, compression {}, {} lent bytes, window of {} bytes \
             {:02X?}",
            self.kind,
            self.width,
            self.height,
            self.depth,
            self.compression,
            self.pixels.len(),
            self.window.len(),
            &self.window[..self.window.len().min(40)]
        )
    }
}

/// The answer, and the pixels after the call.
#[derive(Clone, Debug, PartialEq, Eq)]
pub struct Known {
    pub answer: TileAnswer,
    pub pixels: Vec<u8>,
}

/// Where an operation lies in its window, and whether it overruns its stream.
#[derive(Clone, Copy)]
struct Operation {
    start: usize,
    /// The end of its opcode and length bytes.
    header_end: usize,
    end: usize,
    overruns: bool,
}

/// A tile's encoding while it is put together.
struct Encoding {
    shape: Shape,
    window: Vec<u8>,
    /// What the operations put out, stream after stream.
    streams: Vec<u8>,
    operations: Vec<Operation>,
}

impl Encoding {
    fn new(shape: Shape) -> Self {
        Encoding {
            shape,
            window: Vec::new(),
            streams: Vec::new(),
            operations: Vec::new(),
        }
    }

    /// A whole tile of random operations with counts up to `most`.
    fn random(random: &mut Random, shape: Shape, most: usize) -> Self {
        let mut encoding = Encoding::new(shape);
        while encoding.streams.len() < shape.pixels_length() {
            encoding.push_random(random, most);
        }
        encoding
    }

    /// Bytes that the stream under way still lacks.
    fn room(&self) -> usize {
        let length = self.shape.stream_length();
        length - self.streams.len() % length
    }

    /// Adds an operation that puts out `output`, followed in the window by
    /// `data`.
    fn push(&mut self, header: &[u8], data: &[u8], output: &[u8]) {
        let start = self.window.len();
        let overruns = output.len() > self.room();
        self.window.extend_from_slice(header);
        self.window.extend_from_slice(data);
        self.operations.push(Operation {
            start,
            header_end: start + header.len(),
            end: self.window.len(),
            overruns,
        });
        if !overruns {
            self.streams.extend_from_slice(output);
        }
    }

    fn push_short_run(&mut self, value: u8, count: usize) {
        self.push(&[(count - 1) as u8], &[value], &vec![value; count]);
    }

    fn push_long_run(&mut self, value: u8, count: usize) {
        let [p, q] = (count as u16).to_be_bytes();
        self.push(&[127, p, q], &[value], &vec![value; count]);
    }

    fn push_long_copy(&mut self, data: &[u8]) {
        let [p, q] = (data.len() as u16).to_be_bytes();
        self.push(&[128, p, q], data, data);
    }

    fn push_short_copy(&mut self, data: &[u8]) {
        self.push(&[(256 - data.len()) as u8], data, data);
    }

    /// Adds one operation, of any of the five kinds, that fits its stream.
    fn push_random(&mut self, random: &mut Random, most: usize) {
        let count = random_count(random, most.min(self.room()));
        match random.below(5) {
            0 => self.push_short_run(random.byte(), count.min(127)),
            1 => self.push_long_run(random.byte(), count),
            2 => self.push_long_copy(&random.bytes(count)),
            3 => self.push_short_copy(&random.bytes(count.min(127))),
            _ => self.push_zero_count(random),
        }
    }

    fn push_zero_count(&mut self, random: &mut Random) {
        if random.one_in(2) {
            self.push_long_run(random.byte(), 0);
        } else {
            self.push_long_copy(&[]);
        }
    }

    /// Adds an operation that puts out more than its stream lacks.
    fn push_overrun(&mut self, random: &mut Random) {
        let room = self.room();
        if room < 127 && random.one_in(2) {
            let any = random.between(room + 1, 127);
            let count = random.pick(&[room + 1, 127, any]);
            if random.one_in(2) {
                self.push_short_run(random.byte(), count);
            } else {
                self.push_short_copy(&random.bytes(count));
            }
        } else {
            let near = random.between(room + 1, room + 300);
            let far = random.between(room + 1, 65_535);
            let count = random.pick(&[room + 1, near, near, far, 65_535]);
            if random.one_in(2) {
                self.push_long_run(random.byte(), count);
            } else {
                self.push_long_copy(&random.bytes(count));
            }
        }
    }

    /// The same encoding with zero-count operations, `length` bytes of them (at
    /// least 6), put in before its operations.
    fn padded(&self, random: &mut Random, length: usize) -> Encoding {
        let mut padded = Encoding::new(self.shape);
        let last = self.operations.len() - 1;
        let spread = random.pick(&[1, 2, length / 3 + 1, length]);
        let only_at = random.pick(&[None, Some(0), Some(last)]);
        let mut left = length;
        for (index, operation) in self.operations.iter().enumerate() {
            let share = match only_at {
                None if index < last => random.below(spread + 1),
                None => length,
                Some(place) if place == index => length,
                Some(_) => 0,
            };
            for _ in 0..share {
                left -= padded.push_padding(random, left);
            }
            padded.push_again(self, operation);
        }
        padded.streams = self.streams.clone();
        padded
    }

    /// Adds a zero-count operation, of 3 or 4 bytes, such that others can use
    /// up the rest of `left` bytes exactly; gives its length.
    fn push_padding(&mut self, random: &mut Random, left: usize) -> usize {
        let before = self.window.len();
        match left {
            0 => {}
            12.. => self.push_zero_count(random),
            _ if left.is_multiple_of(3) => self.push_long_copy(&[]),
            _ => self.push_long_run(random.byte(), 0),
        }
        self.window.len() - before
    }

    /// Adds an operation of another encoding, without its output.
    fn push_again(&mut self, other: &Encoding, operation: &Operation) {
        let start = self.window.len();
        let bytes = &other.window[operation.start..operation.end];
        self.window.extend_from_slice(bytes);
        self.operations.push(Operation {
            start,
            header_end: start + operation.header_end - operation.start,
            end: self.window.len(),
            overruns: operation.overruns,
        });
    }

    /// What a window gives that shows the first `length` bytes of this
    /// encoding.
    fn known(&self, length: usize) -> Known {
        let length = length.min(WINDOW_LIMIT);
        for (index, operation) in self.operations.iter().enumerate() {
            let mark = if operation.header_end > length {
                TOO_SOON
            } else if operation.overruns {
                OVERRUN
            } else if operation.end > length {
                TOO_SOON
            } else {
                continue;
            };
            return Known {
                answer: TileAnswer::decoded(mark, operation.start, index),
                pixels: vec![0; self.shape.pixels_length()],
            };
        }
        Known {
            answer: TileAnswer::decoded(GOOD, self.window.len(), self.operations.len()),
            pixels: self.shape.interleave(&self.streams),
        }
    }

    /// A case whose window is this encoding's first `length` bytes.
    fn cut_case(mut self, random: &mut Random, kind: Kind, length: usize) -> DecodeCase {
        let known = self.known(length);
        self.window.truncate(length);
        encoded_case(random, kind, self.shape, self.window, Some(known))
    }

    /// A case whose window is this encoding and a random tail, which may look
    /// like one more zero-count operation.
    fn tail_case(mut self, random: &mut Random, kind: Kind, tail: usize) -> DecodeCase {
        let known = self.known(self.window.len());
        let mut bytes = random.bytes(tail);
        if tail >= 3 && random.one_in(4) {
            bytes[..3].copy_from_slice(&[random.pick(&[127, 128]), 0, 0]);
        }
        self.window.extend(bytes);
        encoded_case(random, kind, self.shape, self.window, Some(known))
    }
}

fn encoded_case(
    random: &mut Random,
    kind: Kind,
    shape: Shape,
    window: Vec<u8>,
    known: Option<Known>,
) -> DecodeCase {
    DecodeCase {
        kind,
        window,
        width: shape.width,
        height: shape.height,
        depth: shape.depth,
        compression: 1,
        pixels: random.bytes(shape.pixels_length()),
        known,
    }
}

/// A case of any kind and shape.
pub fn random_case(random: &mut Random) -> DecodeCase {
    let kind = match random.below(20) {
        0..=5 => Kind::Valid,
        6..=8 => Kind::Cut,
        9..=12 => Kind::Overrun,
        13 | 14 => Kind::Noise,
        15 => Kind::Limit,
        16 | 17 => Kind::Plain,
        _ => Kind::Refused,
    };
    let shape = Shape::random(random);
    case(random, kind, shape)
}

/// A case of the kind; a refused one has `shape` only where it is not spoiled.
pub fn case(random: &mut Random, kind: Kind, shape: Shape) -> DecodeCase {
    match kind {
        Kind::Valid => valid_case(random, shape),
        Kind::Cut => cut_short_case(random, shape),
        Kind::Overrun => overrun_case(random, shape),
        Kind::Noise => noise_case(random, shape),
        Kind::Limit => limit_case(random, shape),
        Kind::Plain => plain_case(random, shape),
        Kind::Refused => refused_case(random, shape),
    }
}

/// The largest count of a tile's operations: mostly small operations in some
/// tiles, large ones in others.
fn random_most(random: &mut Random) -> usize {
    random.pick(&[2, 5, 20, 130, 300, 1000, 4096, 4096])
}

fn valid_case(random: &mut Random, shape: Shape) -> DecodeCase {
    let most = random_most(random);
    let encoding = Encoding::random(random, shape, most);
    let any = random.below(40);
    let tail = random.pick(&[0, 0, 1, 2, 3, any, any]);
    encoding.tail_case(random, Kind::Valid, tail)
}

/// Cuts within an operation: before or after its opcode, within or after its
/// length bytes, within its data.
fn cut_short_case(random: &mut Random, shape: Shape) -> DecodeCase {
    let most = random_most(random);
    let encoding = Encoding::random(random, shape, most);
    let Operation {
        start,
        header_end,
        end,
        ..
    } = random.pick(&encoding.operations);
    let length = match random.below(7) {
        0 => start,
        1 => start + 1,
        2 => header_end - 1,
        3 => header_end,
        4 => end - 1,
        5 => random.between(start, end - 1),
        _ => random.below(encoding.window.len()),
    };
    let length = length.min(end - 1).min(encoding.window.len() - 1);
    encoding.cut_case(random, Kind::Cut, length)
}

/// An overrun after some operations that fit, in any of the streams; its data
/// may be there, with or without a tail, or be missing in part or whole, and
/// its length bytes may be missing too.
fn overrun_case(random: &mut Random, shape: Shape) -> DecodeCase {
    let mut encoding = Encoding::new(shape);
    let most = random_most(random);
    let enough = random.below(shape.pixels_length());
    while encoding.streams.len() < enough {
        encoding.push_random(random, most);
    }
    if encoding.streams.len() == shape.pixels_length() {
        encoding = Encoding::new(shape);
    }
    encoding.push_overrun(random);
    let Operation {
        start,
        header_end,
        end,
        ..
    } = encoding.operations[encoding.operations.len() - 1];
    let length = match random.below(8) {
        0..=2 => {
            let tail = random.below(20);
            return encoding.tail_case(random, Kind::Overrun, tail);
        }
        3 => end,
        4 => end - 1,
        5 => header_end,
        6 => random.between(header_end, end),
        _ => random.between(start, header_end),
    };
    encoding.cut_case(random, Kind::Overrun, length)
}

fn noise_case(random: &mut Random, shape: Shape) -> DecodeCase {
    const NOTABLE: [u8; 14] = [0, 0, 0, 0, 1, 2, 3, 126, 127, 128, 129, 253, 254, 255];
    const SHORT: [u8; 12] = [0, 0, 0, 0, 0, 0, 0, 1, 127, 128, 255, 255];
    let length = match random.below(8) {
        0 => random.below(4),
        1 => random.below(30_000),
        _ => random.below(shape.pixels_length() * 3 + 1),
    };
    let mut window = random.bytes(length);
    let rate = random.pick(&[1, 1, 2, 4, 1000]);
    let values: &[u8] = random.pick(&[&NOTABLE[..], &SHORT[..]]);
    for byte in &mut window {
        if random.one_in(rate) {
            *byte = random.pick(values);
        }
    }
    encoded_case(random, Kind::Noise, shape, window, None)
}

/// An encoding padded to about the limit, or a window past the limit behind a
/// short encoding.
fn limit_case(random: &mut Random, shape: Shape) -> DecodeCase {
    let most = random.pick(&[130, 300, 1000, 4096]);
    let mut encoding = Encoding::random(random, shape, most);
    while encoding.window.len() > WINDOW_LIMIT - 50 {
        encoding = Encoding::random(random, shape, 4096);
    }
    if random.one_in(4) {
        let near = random.between(WINDOW_LIMIT - 2, WINDOW_LIMIT + 2);
        let far = random.between(WINDOW_LIMIT, 40_000);
        let tail = random.pick(&[near, far]) - encoding.window.len();
        return encoding.tail_case(random, Kind::Limit, tail);
    }
    let length = match random.below(8) {
        0 => WINDOW_LIMIT,
        1 => WINDOW_LIMIT + 1,
        2..=6 => random.between(WINDOW_LIMIT - 5, WINDOW_LIMIT + 10),
        _ => random.between(WINDOW_LIMIT, WINDOW_LIMIT + 5_000),
    };
    let tail = random.pick(&[0, 0, 1, 30]);
    padded_case(random, &encoding, length, tail)
}

/// An encoding that zero-count operations bring to `length` bytes, and a tail.
fn padded_case(random: &mut Random, encoding: &Encoding, length: usize, tail: usize) -> DecodeCase {
    let padded = encoding.padded(random, length - encoding.window.len());
    padded.tail_case(random, Kind::Limit, tail)
}

/// A small tile whose encoding is `length` bytes long, most of them
/// zero-count operations, and a tail.
pub fn degenerate_case(random: &mut Random, length: usize, tail: usize) -> DecodeCase {
    let shape = Shape::new(3, 2, 2);
    let mut encoding = Encoding::random(random, shape, 6);
    while encoding.window.len() + 6 > length {
        encoding = Encoding::random(random, shape, 6);
    }
    padded_case(random, &encoding, length, tail)
}

fn plain_case(random: &mut Random, shape: Shape) -> DecodeCase {
    let right = shape.pixels_length();
    let length = match random.below(8) {
        0 | 1 => right,
        2 => right - 1,
        3 => 0,
        4 => random.below(right),
        5 => right + 1,
        6 => right + random.below(100),
        _ => random.between(WINDOW_LIMIT - 1, WINDOW_LIMIT + 2),
    };
    let window = random.bytes(length);
    let known = match window.get(..right) {
        Some(pixels) => Known {
            answer: TileAnswer::decoded(GOOD, right, 0),
            pixels: pixels.to_vec(),
        },
        None => Known {
            answer: TileAnswer::decoded(TOO_SOON, 0, 0),
            pixels: vec![0; right],
        },
    };
    DecodeCase {
        compression: 0,
        ..encoded_case(random, Kind::Plain, shape, window, Some(known))
    }
}

fn refused_case(random: &mut Random, shape: Shape) -> DecodeCase {
    let mut case = match random.below(3) {
        0 => valid_case(random, shape),
        1 => plain_case(random, shape),
        _ => noise_case(random, shape),
    };
    let number = if random.one_in(3) {
        let length = wrong_length(random, shape.pixels_length());
        case.pixels = random.bytes(length);
        WRONG_LENGTH
    } else {
        spoil(random, &mut case, shape);
        UNUSABLE
    };
    case.kind = Kind::Refused;
    case.known = Some(Known {
        answer: TileAnswer::refused(number),
        pixels: case.pixels.clone(),
    });
    case
}

/// Makes the compression unusable, or one or more of the shape's numbers, or
/// both.
fn spoil(random: &mut Random, case: &mut DecodeCase, shape: Shape) {
    let which = random.below(5);
    if which <= 1 {
        case.compression = match unusable(random, case.compression, 1) {
            0 => 2,
            number => number,
        };
    }
    if which >= 1 {
        let spoiled = shape.spoiled(random);
        (case.width, case.height, case.depth) = (spoiled.width, spoiled.height, spoiled.depth);
        let length = length_when_spoiled(random, shape, spoiled);
        case.pixels = random.bytes(length);
    } else if random.one_in(3) {
        let length = wrong_length(random, shape.pixels_length());
        case.pixels = random.bytes(length);
    }
}
