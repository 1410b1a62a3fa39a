//! Tiles that are written, byte for byte.

use xcf_compare::answer::Row;
use xcf_compare::files::laid::words;

use crate::{CHANNEL, Call, LAYER, MASK, word};

/// A row for a drawable of one line of pixels, of one tile and no name.
fn line(row: Row, width: u32) -> Row {
    let mut row = row;
    [row[1], row[6]] = [width, 0];
    row
}

/// Four tiles of depth 4, each stream of one value: whole, cut on the right,
/// cut below, cut both ways.
#[test]
fn four_tiles() {
    let row = [1, 65, 66, 4, 1, 0, 0, 0, 0, 4, 255, 1, 0, 0, 0, 0];
    let value = |i: usize, k: usize| {
        let (column, line) = (i % 65 / 64, i / 65 / 64);
        (10 * (column + 2 * line) + k) as u8
    };
    let pixels = (0..65 * 66).flat_map(|i| (0..4).map(move |k| value(i, k)));
    let call = Call::new([1, 1], 0, &[row]).with_pixels(&pixels.collect::<Vec<u8>>());
    let tile =
        |stream: fn(u8) -> Vec<u8>, tile: u8| (0..4).flat_map(move |k| stream(10 * tile + k));
    let tiles: [Vec<u8>; 4] = [
        tile(|value| vec![0x7F, 0x10, 0x00, value], 0).collect(),
        tile(|value| vec![0x3F, value], 1).collect(),
        tile(|value| vec![0x7F, 0x00, 0x80, value], 2).collect(),
        tile(|value| vec![0xFE, value, value], 3).collect(),
    ];
    let file = call.file();
    // The layer is at 55, its list at 71, its hierarchy at 139.
    assert_eq!(file[139..159], words(&[65, 66, 4, 159, 0]));
    assert_eq!(file[159..167], words(&[65, 66]));
    assert_eq!(file[167..187], words(&[187, 203, 211, 227, 0]));
    assert_eq!(file[187..], tiles.concat());
}

/// Sides of 200 and 150 take 12 tiles, the last of 8 by 22 pixels; the longest
/// side takes 256.
#[test]
fn many_tiles() {
    let mut row = CHANNEL;
    [row[1], row[2], row[6], row[9]] = [200, 150, 0, 12];
    let file = Call::new([200, 150], 1, &[row]).file();
    assert_eq!(word(&file, 131 + 4 * 12), 0);
    assert_eq!(file[file.len() - 4..], [0x7F, 0, 176, 0]);
    let mut row = LAYER;
    [row[1], row[9]] = [16_384, 256];
    let file = Call::grey(&[row]).file();
    assert_eq!(file[file.len() - 512..], [0x3F, 0].repeat(256));
    [row[1], row[2]] = [1, 16_384];
    let file = Call::grey(&[row]).file();
    assert_eq!(file[file.len() - 512..], [0x3F, 0].repeat(256));
}

/// Runs of three or more, and the bytes between them.
#[test]
fn streams() {
    let unequal: Vec<u8> = (0..64).collect();
    for (pixels, stream) in [
        (&[0xAA, 0xAA, 0xBB][..], &[0xFD, 0xAA, 0xAA, 0xBB][..]),
        (&[1, 2, 2, 2], &[0xFF, 1, 2, 2]),
        (&[9], &[0xFF, 9]),
        (&[9, 9], &[0xFE, 9, 9]),
        (&[9, 9, 9], &[2, 9]),
        (&[9, 9, 9, 8, 8, 8], &[2, 9, 2, 8]),
        (&unequal, &[&[0xC0], &unequal[..]].concat()),
    ] {
        let width = pixels.len() as u32;
        let call = Call::grey(&[line(LAYER, width)]).with_pixels(pixels);
        let file = call.file();
        assert_eq!(file[file.len() - stream.len()..], *stream);
    }
}

/// A run does not go on from one stream to the next, nor from one tile to the
/// next.
#[test]
fn runs_end_with_their_stream() {
    let mut row = line(LAYER, 2);
    [row[3], row[4]] = [2, 3];
    let call = Call::grey(&[row]).with_pixels(&[7; 4]);
    let file = call.file();
    assert_eq!(file[file.len() - 6..], [0xFE, 7, 7, 0xFE, 7, 7]);
    let mut row = line(LAYER, 66);
    row[9] = 2;
    let file = Call::grey(&[row]).with_pixels(&[7; 66]).file();
    assert_eq!(file[file.len() - 5..], [0x3F, 7, 0xFE, 7, 7]);
}

/// The pixels of all rows follow each other.
#[test]
fn pixels_in_row_order() {
    let rows = [line(LAYER, 3), line(MASK, 3), LAYER];
    let mut call = Call::grey(&rows).with(2, 15, 2);
    call.pixels = vec![1, 2, 3, 4, 5, 6, 7];
    let file = call.file();
    let place = |tile: &[u8]| file.windows(tile.len()).position(|bytes| bytes == tile);
    let [layer, mask] = [[0xFD, 1, 2, 3], [0xFD, 4, 5, 6]].map(|tile| place(&tile));
    assert!(layer.is_some() && layer < mask);
    assert_eq!(file[file.len() - 2..], [0xFF, 7]);
}
