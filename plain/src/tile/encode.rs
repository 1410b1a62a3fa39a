//! A tile encoded, stream by stream.

use std::ops::Range;

use super::{SIDE, check_shape};
use crate::{Fault, Refusal};

/// Bytes in a stream of the largest tile.
const STREAM_LIMIT: usize = SIDE * SIDE;

/// The most bytes by which an encoding of a stream is longer than the stream.
pub const STREAM_EXCESS: usize = excess(STREAM_LIMIT);

/// The same for a stream of so many bytes: each copy of more than 127 bytes
/// takes 3, and a run behind it, of 3 bytes, saves 1.
const fn excess(length: usize) -> usize {
    3 + 2 * (length / 131)
}

/// Writes a run to the start of `output`; gives its length.
fn write_run(output: &mut [u8], value: u8, count: usize) -> usize {
    if count <= 127 {
        output[..2].copy_from_slice(&[(count - 1) as u8, value]);
        2
    } else {
        output[..4].copy_from_slice(&[127, (count >> 8) as u8, count as u8, value]);
        4
    }
}

/// Writes a copy to the start of `output`; gives its length.
fn write_copy(output: &mut [u8], bytes: &[u8]) -> usize {
    let count = bytes.len();
    let header = if count <= 127 {
        output[0] = (256 - count) as u8;
        1
    } else {
        output[..3].copy_from_slice(&[128, (count >> 8) as u8, count as u8]);
        3
    };
    output[header..header + count].copy_from_slice(bytes);
    header + count
}

/// Encodes a stream to the start of `output`, which has room; gives the
/// encoding's length. Its loops are faster where it stands by itself.
#[inline(never)]
fn encode_stream(mut rest: &[u8], output: &mut [u8]) -> usize {
    let mut length = 0;
    while let Some(&value) = rest.first() {
        let equal = rest.iter().position(|&byte| byte != value);
        let mut count = equal.unwrap_or(rest.len());
        if count >= 3 {
            length += write_run(&mut output[length..], value, count);
        } else {
            let run = rest.windows(3).position(|w| w[0] == w[1] && w[1] == w[2]);
            count = run.unwrap_or(rest.len());
            length += write_copy(&mut output[length..], &rest[..count]);
        }
        rest = &rest[count..];
    }
    length
}

/// Byte `k` of each pixel in the columns of lines of so many pixels.
fn gather<'a, const DEPTH: usize>(
    lines: &[[u8; DEPTH]],
    width: usize,
    columns: &Range<usize>,
    k: usize,
    room: &'a mut [u8],
) -> &'a [u8] {
    let mut count = 0;
    for line in lines.chunks_exact(width) {
        let line = &line[columns.clone()];
        let part = &mut room[count..count + line.len()];
        for (byte, pixel) in part.iter_mut().zip(line) {
            *byte = pixel[k];
        }
        count += line.len();
    }
    &room[..count]
}

/// Encodes the tile in the columns of lines of so many pixels to the start of
/// `output`, which has room; gives the encoding's length. The streams are
/// gathered in `room`.
pub fn encode_part<const DEPTH: usize>(
    lines: &[[u8; DEPTH]],
    width: usize,
    columns: Range<usize>,
    room: &mut [u8; STREAM_LIMIT],
    output: &mut [u8],
) -> usize {
    let mut length = 0;
    for k in 0..DEPTH {
        let stream = gather(lines, width, &columns, k, room);
        length += encode_stream(stream, &mut output[length..]);
    }
    length
}

/// Encodes a tile whose lines are one, so that a stream of depth 1 is there
/// already.
fn encode_alone<const DEPTH: usize>(pixels: &[u8], output: &mut [u8]) -> usize {
    if DEPTH == 1 {
        return encode_stream(pixels, output);
    }
    let (pixels, _) = pixels.as_chunks::<DEPTH>();
    let mut room = [0; STREAM_LIMIT];
    encode_part(pixels, pixels.len(), 0..pixels.len(), &mut room, output)
}

fn encode_pixels(pixels: &[u8], depth: u32, output: &mut [u8]) -> usize {
    match depth {
        1 => encode_alone::<1>(pixels, output),
        2 => encode_alone::<2>(pixels, output),
        3 => encode_alone::<3>(pixels, output),
        _ => encode_alone::<4>(pixels, output),
    }
}

/// Encodes a tile to the start of the output, straight into it where it has
/// room for any pixels; gives the encoding's length.
pub fn encode_tile(
    pixels: &[u8],
    width: u32,
    height: u32,
    depth: u32,
    output: &mut [u8],
) -> Result<usize, Refusal> {
    check_shape(width, height, depth, pixels)?;
    let bound = pixels.len() + depth as usize * excess((width * height) as usize);
    if output.len() >= bound {
        return Ok(encode_pixels(pixels, depth, output));
    }
    let mut encoding = vec![0; bound];
    let length = encode_pixels(pixels, depth, &mut encoding);
    let start = output.get_mut(..length);
    start
        .ok_or(Fault::OutputTooShort.at(0))?
        .copy_from_slice(&encoding[..length]);
    Ok(length)
}
