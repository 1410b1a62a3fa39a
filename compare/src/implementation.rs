//! The implementations that every case is run through, and their agreement.

use std::fmt::Debug;

use crate::answer::{Decode, DecodeDrawable, Encode, Read, Write};
use crate::guard::Guarded;
use crate::{decode, library, plain, read, tile, write};

/// The functions that every implementation has.
pub struct Implementation {
    pub name: &'static str,
    pub decode_tile: Decode,
    pub encode_tile: Encode,
    pub read: Read,
    pub decode: DecodeDrawable,
    pub write: Write,
}

/// The independent implementation of this package.
pub const REFERENCE: Implementation = Implementation {
    name: "reference",
    decode_tile: tile::decode_tile,
    encode_tile: tile::encode_tile,
    read: read::read,
    decode: decode::decode,
    write: write::write,
};

/// The static library.
pub const LIBRARY: Implementation = Implementation {
    name: "library",
    decode_tile: library::decode_tile,
    encode_tile: library::encode_tile,
    read: library::read,
    decode: library::decode,
    write: library::write,
};

/// The plain Rust that the library is measured against.
pub const PLAIN: Implementation = Implementation {
    name: "plain",
    decode_tile: |window, width, height, depth, compression, pixels| {
        let tile = xcf_plain::decode_tile(window, width, height, depth, compression, pixels);
        plain::decoded_tile(tile)
    },
    encode_tile: |pixels, width, height, depth, output| {
        plain::written(xcf_plain::encode_tile(pixels, width, height, depth, output))
    },
    read: |file, table| plain::read(xcf_plain::read(file, table)),
    decode: |file, table, row, compression, pointer_size, pixels, marks| {
        let marked = xcf_plain::decode(file, table, row, compression, pointer_size, pixels, marks);
        plain::decoded(marked)
    },
    write: |width, height, base, table, names, pixels, output| {
        let length = xcf_plain::write(width, height, base, table, names, pixels, output);
        plain::written(length)
    },
};

/// All of them. What the first gives, the others must give too.
pub const ALL: [Implementation; 3] = [REFERENCE, LIBRARY, PLAIN];

/// Runs a case through all implementations, each with buffers of its own, and
/// asserts that the answers and the buffers with their guards are equal; gives
/// them. `summary` says which case it is.
pub fn agree<Answer, Item, const BUFFERS: usize>(
    summary: impl Fn() -> String,
    run: impl Fn(&Implementation) -> (Answer, [Guarded<Item>; BUFFERS]),
) -> (Answer, [Vec<Item>; BUFFERS])
where
    Answer: Debug + PartialEq,
    Item: Copy + PartialEq + From<u8>,
{
    let [first, others @ ..] = ALL;
    let (expected, mut ours) = run(&first);
    for other in others {
        let (given, theirs) = run(&other);
        let name = other.name;
        assert_eq!(given, expected, "{name}: {}", summary());
        for (ours, theirs) in ours.iter().zip(&theirs) {
            assert_eq!(theirs.difference(ours), None, "{name}: {}", summary());
        }
    }
    (
        expected,
        ours.each_mut().map(|buffer| buffer.lent().to_vec()),
    )
}
