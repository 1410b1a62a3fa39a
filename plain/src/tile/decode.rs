//! A tile decoded from its window.

use super::check_shape;
use crate::{Fault, Refusal};

/// Longer windows are cut here.
const WINDOW_LIMIT: usize = 24_576;

/// Whether a tile is good, each mark with its number.
#[derive(Clone, Copy, Debug, PartialEq, Eq)]
pub enum Mark {
    Good = 0,
    /// The window ends too soon.
    TooSoon = 20,
    /// An operation runs over the end of its stream.
    Overrun = 21,
}

/// What decoding a tile comes to.
#[derive(Clone, Copy, Debug, PartialEq, Eq)]
pub struct Tile {
    pub mark: Mark,
    /// Bytes of the window, up to the failing operation where one fails.
    pub consumed: usize,
    /// Operations carried out in full.
    pub operations: usize,
}

/// What an operation puts out.
enum Output<'a> {
    Run(u8),
    Copy(&'a [u8]),
}

/// An operation read from a window: what and how many bytes it puts out, and
/// its own length.
struct Operation<'a> {
    output: Output<'a>,
    count: usize,
    length: usize,
}

/// Reads the operation at the start of `input`, for a stream that lacks
/// `room` bytes.
#[inline]
fn read_operation(input: &[u8], room: usize) -> Result<Operation<'_>, Mark> {
    let (is_run, count, header) = match *input {
        [n @ 0..=126, ..] => (true, usize::from(n) + 1, 1),
        [n @ 129..=255, ..] => (false, 256 - usize::from(n), 1),
        [n, p, q, ..] => (n == 127, usize::from(p) << 8 | usize::from(q), 3),
        _ => return Err(Mark::TooSoon),
    };
    if count > room {
        return Err(Mark::Overrun);
    }
    let data = &input[header..];
    if is_run {
        let &value = data.first().ok_or(Mark::TooSoon)?;
        Ok(Operation {
            output: Output::Run(value),
            count,
            length: header + 1,
        })
    } else {
        let bytes = data.get(..count).ok_or(Mark::TooSoon)?;
        Ok(Operation {
            output: Output::Copy(bytes),
            count,
            length: header + count,
        })
    }
}

/// Puts an operation's output into byte `k` of each of the pixels.
fn put<const DEPTH: usize>(output: Output, pixels: &mut [[u8; DEPTH]], k: usize) {
    match output {
        Output::Run(value) if DEPTH == 1 => pixels.as_flattened_mut().fill(value),
        Output::Copy(bytes) if DEPTH == 1 => pixels.as_flattened_mut().copy_from_slice(bytes),
        Output::Run(value) => {
            for pixel in pixels {
                pixel[k] = value;
            }
        }
        Output::Copy(bytes) => {
            for (pixel, &byte) in pixels.iter_mut().zip(bytes) {
                pixel[k] = byte;
            }
        }
    }
}

/// Decodes a stream into byte `k` of each of the pixels, behind what the tile
/// has consumed.
fn decode_stream<const DEPTH: usize>(
    window: &[u8],
    mut rest: &mut [[u8; DEPTH]],
    k: usize,
    tile: &mut Tile,
) -> Result<(), Mark> {
    while !rest.is_empty() {
        let operation = read_operation(&window[tile.consumed..], rest.len())?;
        let (now, later) = rest.split_at_mut(operation.count);
        put(operation.output, now, k);
        rest = later;
        tile.consumed += operation.length;
        tile.operations += 1;
    }
    Ok(())
}

fn decode_streams<const DEPTH: usize>(window: &[u8], pixels: &mut [u8]) -> Tile {
    let (pixels, _) = pixels.as_chunks_mut::<DEPTH>();
    let mut tile = Tile {
        mark: Mark::Good,
        consumed: 0,
        operations: 0,
    };
    for k in 0..DEPTH {
        if let Err(mark) = decode_stream(window, pixels, k, &mut tile) {
            pixels.as_flattened_mut().fill(0);
            return Tile { mark, ..tile };
        }
    }
    tile
}

fn decode_plain(window: &[u8], pixels: &mut [u8]) -> Tile {
    let (mark, consumed) = match window.get(..pixels.len()) {
        Some(bytes) => {
            pixels.copy_from_slice(bytes);
            (Mark::Good, bytes.len())
        }
        None => {
            pixels.fill(0);
            (Mark::TooSoon, 0)
        }
    };
    Tile {
        mark,
        consumed,
        operations: 0,
    }
}

/// Decodes the tile at the start of a window; compression is 0 (plain) or 1
/// (run-length encoded). A marked tile's pixels are zero.
pub fn decode_tile(
    window: &[u8],
    width: u32,
    height: u32,
    depth: u32,
    compression: u32,
    pixels: &mut [u8],
) -> Result<Tile, Refusal> {
    Fault::Unusable.unless(compression <= 1)?;
    check_shape(width, height, depth, pixels)?;
    let window = &window[..window.len().min(WINDOW_LIMIT)];
    Ok(match (compression, depth) {
        (0, _) => decode_plain(window, pixels),
        (_, 1) => decode_streams::<1>(window, pixels),
        (_, 2) => decode_streams::<2>(window, pixels),
        (_, 3) => decode_streams::<3>(window, pixels),
        (_, _) => decode_streams::<4>(window, pixels),
    })
}
