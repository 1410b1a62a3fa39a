//! The longest file that there may be.

use xcf_compare::answer::{FILE_LIMIT, Row, WriteAnswer};
use xcf_compare::files::table_of;
use xcf_compare::implementation::{LIBRARY, PLAIN};

use crate::{FILLING, LAYER};

/// Bytes of a tile that has no runs, and of its pointer.
const TILE: usize = 3 + 4_096 + 4;

/// The sides of five layers of whole tiles.
const SIDES: [[u32; 2]; 5] = [
    [16_384, 16_384],
    [16_384, 16_384],
    [16_384, 16_384],
    [16_384, 16_256],
    [64, 4_096],
];

/// How many tiles they have.
const TILES: usize = 261_696;

/// Their rows. Beside tiles and names the image takes 51 bytes and each layer
/// 120; a name takes one more than it has.
fn rows(last_name: u32) -> [Row; 5] {
    let names = [1_024, 1_024, last_name, 0, 0];
    let mut rows = [LAYER; 5];
    for (index, row) in rows.iter_mut().enumerate() {
        let [width, height] = SIDES[index];
        [row[1], row[2], row[9]] = [width, height, width / 64 * (height / 64)];
        [row[6], row[15]] = [names[index], index as u32];
    }
    rows
}

/// A sum of the bytes and of where they stand.
fn checksum(bytes: &[u8]) -> u64 {
    let words = bytes
        .chunks_exact(8)
        .map(|word| u64::from_le_bytes(word.try_into().expect("eight bytes")));
    words.fold(bytes.len() as u64, |sum, word| {
        sum.rotate_left(5).wrapping_mul(0x9E37_79B9_7F4A_7C15) ^ word
    })
}

/// A file of one byte above the limit is refused, though there is room, and the
/// output stays as lent; one of the limit is written, the same by both. The
/// answers are written out, so that the reference is not run: the pixels and the
/// one output take about 2.2 GB of memory, and the plain writer as much as the
/// output again.
#[test]
fn file_limit() {
    let length = |name: u32| 51 + 5 * 120 + 2 * 1_025 + name as usize + 1 + TILES * TILE;
    assert_eq!(length(434), FILE_LIMIT);
    let pixels = [0, 1].repeat(TILES * 2_048);
    let mut output = vec![FILLING; FILE_LIMIT + 1];
    let files = [LIBRARY, PLAIN].map(|by| {
        output.fill(FILLING);
        let write = |name: u32, output: &mut [u8]| {
            let table = table_of(&rows(name));
            (by.write)(1, 1, 1, &table, &[b'n'; 1_024], &pixels, output)
        };
        assert_eq!(write(435, &mut output), WriteAnswer::refused(18));
        assert!(output.iter().all(|byte| *byte == FILLING), "{}", by.name);
        assert_eq!(write(434, &mut output), WriteAnswer::written(FILE_LIMIT));
        assert_eq!(output[FILE_LIMIT], FILLING);
        checksum(&output[..FILE_LIMIT])
    });
    assert_eq!(files[0], files[1]);
}
