//! The reference: decoding and encoding one tile, written for clarity.

use crate::answer::{
    GOOD, OUTPUT_TOO_SHORT, OVERRUN, STREAM_LIMIT, TOO_SOON, TileAnswer, UNUSABLE, WINDOW_LIMIT,
    WRONG_LENGTH, WriteAnswer,
};

/// What decoding one stream gives.
#[derive(Debug, PartialEq, Eq)]
pub struct StreamAnswer {
    /// The bytes put out by the operations carried out in full.
    pub bytes: Vec<u8>,
    pub mark: u64,
    /// Bytes consumed; for a marked stream, where the failing operation starts.
    pub consumed: usize,
    /// Operations carried out in full.
    pub operations: usize,
}

/// An operation's opcode and length bytes.
struct Header {
    is_run: bool,
    /// Bytes that the operation puts out.
    count: usize,
    /// Bytes that the opcode and length bytes take.
    length: usize,
}

impl Header {
    /// The header at the start of `input`, if all of it is there.
    fn read(input: &[u8]) -> Option<Header> {
        let (is_run, count, length) = match *input {
            [n @ 0..=126, ..] => (true, usize::from(n) + 1, 1),
            [127, p, q, ..] => (true, long_count(p, q), 3),
            [128, p, q, ..] => (false, long_count(p, q), 3),
            [n @ 129..=255, ..] => (false, 256 - usize::from(n), 1),
            _ => return None,
        };
        Some(Header {
            is_run,
            count,
            length,
        })
    }

    /// Data bytes that follow the header: a run's value, or the bytes to copy.
    fn data_length(&self) -> usize {
        if self.is_run { 1 } else { self.count }
    }
}

fn long_count(p: u8, q: u8) -> usize {
    usize::from(p) * 256 + usize::from(q)
}

/// Carries out the operation at the start of `input`, appending to `output`,
/// which may grow to `stream_length` bytes. Gives the operation's own length,
/// or the mark of the first rule that it breaks.
fn carry_out(input: &[u8], output: &mut Vec<u8>, stream_length: usize) -> Result<usize, u64> {
    let header = Header::read(input).ok_or(TOO_SOON)?;
    if output.len() + header.count > stream_length {
        return Err(OVERRUN);
    }
    let end = header.length + header.data_length();
    let data = input.get(header.length..end).ok_or(TOO_SOON)?;
    if header.is_run {
        output.extend(std::iter::repeat_n(data[0], header.count));
    } else {
        output.extend_from_slice(data);
    }
    Ok(end)
}

/// Decodes a stream of `stream_length` bytes from the start of `input`.
pub fn decode_stream(input: &[u8], stream_length: usize) -> StreamAnswer {
    let mut answer = StreamAnswer {
        bytes: Vec::with_capacity(stream_length),
        mark: GOOD,
        consumed: 0,
        operations: 0,
    };
    while answer.bytes.len() < stream_length {
        match carry_out(&input[answer.consumed..], &mut answer.bytes, stream_length) {
            Ok(length) => {
                answer.consumed += length;
                answer.operations += 1;
            }
            Err(mark) => {
                answer.mark = mark;
                break;
            }
        }
    }
    answer
}

/// The refusal, if any, that decoding and encoding share.
fn refusal(width: u32, height: u32, depth: u32, pixels_length: usize) -> Option<u64> {
    let usable =
        (1..=64).contains(&width) && (1..=64).contains(&height) && (1..=4).contains(&depth);
    if !usable {
        Some(UNUSABLE)
    } else if pixels_length != (width * height * depth) as usize {
        Some(WRONG_LENGTH)
    } else {
        None
    }
}

/// Decodes a tile from its window; compression is 0 (plain) or 1 (encoded).
pub fn decode_tile(
    window: &[u8],
    width: u32,
    height: u32,
    depth: u32,
    compression: u32,
    pixels: &mut [u8],
) -> TileAnswer {
    if compression > 1 {
        return TileAnswer::refused(UNUSABLE);
    }
    if let Some(number) = refusal(width, height, depth, pixels.len()) {
        return TileAnswer::refused(number);
    }
    let window = &window[..window.len().min(WINDOW_LIMIT)];
    let answer = if compression == 0 {
        decode_plain(window, pixels)
    } else {
        decode_streams(window, depth as usize, pixels)
    };
    if answer.mark != GOOD {
        pixels.fill(0);
    }
    answer
}

fn decode_plain(window: &[u8], pixels: &mut [u8]) -> TileAnswer {
    match window.get(..pixels.len()) {
        Some(bytes) => {
            pixels.copy_from_slice(bytes);
            TileAnswer::decoded(GOOD, bytes.len(), 0)
        }
        None => TileAnswer::decoded(TOO_SOON, 0, 0),
    }
}

/// Decodes one stream after the other and deals their bytes out to the pixels.
fn decode_streams(window: &[u8], depth: usize, pixels: &mut [u8]) -> TileAnswer {
    let stream_length = pixels.len() / depth;
    let mut consumed = 0;
    let mut operations = 0;
    for k in 0..depth {
        let stream = decode_stream(&window[consumed..], stream_length);
        consumed += stream.consumed;
        operations += stream.operations;
        if stream.mark != GOOD {
            return TileAnswer::decoded(stream.mark, consumed, operations);
        }
        for (i, &byte) in stream.bytes.iter().enumerate() {
            pixels[i * depth + k] = byte;
        }
    }
    TileAnswer::decoded(GOOD, consumed, operations)
}

/// How many bytes equal to the first stand at the start of `bytes`.
fn equal_bytes(bytes: &[u8]) -> usize {
    bytes.iter().take_while(|&&byte| byte == bytes[0]).count()
}

/// How many bytes stand before the next three equal ones, or the end.
fn unequal_bytes(bytes: &[u8]) -> usize {
    bytes
        .windows(3)
        .position(|three| three[0] == three[1] && three[1] == three[2])
        .unwrap_or(bytes.len())
}

fn push_run(output: &mut Vec<u8>, value: u8, count: usize) {
    if count <= 127 {
        output.push((count - 1) as u8);
    } else {
        output.extend([127, (count / 256) as u8, (count % 256) as u8]);
    }
    output.push(value);
}

fn push_copy(output: &mut Vec<u8>, data: &[u8]) {
    let count = data.len();
    if count <= 127 {
        output.push((256 - count) as u8);
    } else {
        output.extend([128, (count / 256) as u8, (count % 256) as u8]);
    }
    output.extend_from_slice(data);
}

/// Encodes a stream of at most 4,096 bytes.
pub fn encode_stream(stream: &[u8]) -> Vec<u8> {
    let mut output = Vec::new();
    let mut rest = stream;
    while !rest.is_empty() {
        let equal = equal_bytes(rest);
        let count = if equal >= 3 {
            push_run(&mut output, rest[0], equal);
            equal
        } else {
            let unequal = unequal_bytes(rest);
            push_copy(&mut output, &rest[..unequal]);
            unequal
        };
        rest = &rest[count..];
    }
    output
}

/// The most bytes that the encoding of a stream of `n` bytes takes.
pub fn stream_bound(n: usize) -> usize {
    n + 3 + 2 * (n / 131)
}

/// The streams of the pixels, each encoded, one after the other.
pub fn encode_pixels(pixels: &[u8], depth: usize) -> Vec<u8> {
    let mut output = Vec::new();
    for k in 0..depth {
        let stream: Vec<u8> = pixels.iter().skip(k).step_by(depth).copied().collect();
        output.extend(encode_stream(&stream));
    }
    output
}

/// Encodes a tile to the start of `output`.
pub fn encode_tile(
    pixels: &[u8],
    width: u32,
    height: u32,
    depth: u32,
    output: &mut [u8],
) -> WriteAnswer {
    if let Some(number) = refusal(width, height, depth, pixels.len()) {
        return WriteAnswer::refused(number);
    }
    write(&encode_pixels(pixels, depth as usize), output)
}

/// Encodes a stream to the start of `output`.
pub fn encode_stream_to(stream: &[u8], output: &mut [u8]) -> WriteAnswer {
    if stream.len() > STREAM_LIMIT {
        return WriteAnswer::refused(WRONG_LENGTH);
    }
    write(&encode_stream(stream), output)
}

/// Writes bytes to the start of `output`, if there is room for them.
pub fn write(bytes: &[u8], output: &mut [u8]) -> WriteAnswer {
    match output.get_mut(..bytes.len()) {
        Some(start) => {
            start.copy_from_slice(bytes);
            WriteAnswer::written(bytes.len())
        }
        None => WriteAnswer::refused(OUTPUT_TOO_SHORT),
    }
}
