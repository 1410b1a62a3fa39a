//! What is decoded: tiles at their places, marks, windows.

use xcf_compare::answer::{TABLE_LENGTH, WINDOW_LIMIT};
use xcf_compare::files::EXAMPLE;
use xcf_compare::files::laid::words;

use crate::{CHANNEL, Call, drawable, sized_drawable};

#[test]
fn the_example() {
    Call::example().assert_decodes(&[0], &[0xFF]);
    Call::long_example().assert_decodes(&[0], &[0xFF]);
}

/// Numbers of the row that decoding does not use may be any.
#[test]
fn numbers_that_are_not_used() {
    for field in [4, 5, 6, 7, 10, 11, 12, 13, 14, 15] {
        for value in [0, 1, 1 << 31, u32::MAX] {
            Call::example()
                .with_field(field, value)
                .assert_decodes(&[0], &[0xFF]);
        }
    }
    // Any kind may have any depth.
    let two_streams = drawable([2, 1], 2, 1, &[&[0x01, 0x10, 0xFE, 0x20, 0x30]]);
    for kind in 1..=3 {
        let call = two_streams.with_field(0, kind);
        call.assert_decodes(&[0], &[0x10, 0x20, 0x10, 0x30]);
    }
}

#[test]
fn any_row_of_the_table() {
    for row in [1, 64, 127] {
        let mut call = Call::example();
        call.table = vec![u32::MAX; TABLE_LENGTH];
        call.table[16 * row as usize..][..16].copy_from_slice(&CHANNEL);
        call.row = row;
        call.assert_decodes(&[0], &[0xFF]);
    }
}

/// Tiles lie row by row, and those in the last column and row are smaller.
fn assert_four_tiles(size: usize) {
    let tiles: [&[u8]; 4] = [&[1; 4_096], &[2; 64], &[3; 128], &[4; 2]];
    let call = sized_drawable(size, [65, 66], 1, 0, &tiles);
    let mut pixels = vec![1; 65 * 66];
    for (i, pixel) in pixels.iter_mut().enumerate() {
        *pixel += u8::from(i % 65 == 64) + 2 * u8::from(i / 65 >= 64);
    }
    call.assert_decodes(&[0; 4], &pixels);
    // The second tile's window ends too soon if the third starts earlier.
    let third = 1 + 5 * size + 4_096 + 63;
    let call = call.with_pointer(1 + 2 * size, third as u64);
    for line in 0..64 {
        pixels[65 * line + 64] = 0;
    }
    pixels[65 * 64] = 2;
    call.assert_decodes(&[0, 20, 0, 0], &pixels);
}

#[test]
fn four_tiles() {
    assert_four_tiles(4);
    assert_four_tiles(8);
}

/// Sides of 200 and 150 take 12 tiles, the last of 8 by 22 pixels.
#[test]
fn twelve_tiles() {
    let tiles: Vec<[u8; 4]> = (0..12)
        .map(|tile| {
            let (column, row) = (tile % 4, tile / 4);
            let width: u16 = if column == 3 { 8 } else { 64 };
            let height = if row == 2 { 22 } else { 64 };
            let [p, q] = (width * height).to_be_bytes();
            [0x7F, p, q, tile as u8]
        })
        .collect();
    let tiles: Vec<&[u8]> = tiles.iter().map(|tile| &tile[..]).collect();
    let tile_at = |i: usize| (i % 200 / 64 + i / 200 / 64 * 4) as u8;
    let pixels: Vec<u8> = (0..200 * 150).map(tile_at).collect();
    drawable([200, 150], 1, 1, &tiles).assert_decodes(&[0; 12], &pixels);
}

/// A marked tile shows zeros, whatever the buffer held; its neighbour is not
/// touched by that.
#[test]
fn marked_tiles() {
    let whole = [&[0; 64][..], &[9]].concat();
    let call = drawable([65, 1], 1, 1, &[&[0x40, 0x08], &[0xFF, 9]]);
    call.assert_decodes(&[21, 0], &whole);
    let call = drawable([65, 1], 1, 1, &[&[0x00, 0x08], &[0xFF, 9]]);
    call.assert_decodes(&[20, 0], &whole);
    let call = drawable([65, 1], 1, 1, &[&[0x3F, 0x08], &[0xFF]]);
    call.assert_decodes(&[0, 20], &[&[8; 64][..], &[0]].concat());
    let call = drawable([65, 1], 1, 1, &[&[0x40], &[0x01]]);
    call.assert_decodes(&[21, 21], &[0; 65]);
}

/// No run serves two streams.
#[test]
fn run_over_two_streams() {
    drawable([2, 1], 2, 1, &[&[0x03, 0x10]]).assert_decodes(&[21], &[0; 4]);
}

/// The last window runs to the file's end over all that lies there. The tile
/// here starts at 131, before the pointer itself: 00 01, 00 00, 00 83, 00 00,
/// 00 00, FF FF.
#[test]
fn last_window_runs_over_structures() {
    let wide = |width, compression| {
        let mut row = CHANNEL;
        row[1] = width;
        Call::new(&EXAMPLE, row, compression).with_pointer(133, 131)
    };
    wide(6, 1).assert_decodes(&[0], &[1, 0, 0x83, 0, 0, 0xFF]);
    wide(7, 1).assert_decodes(&[20], &[0; 7]);
    let plain = [0, 1, 0, 0, 0, 0x83, 0, 0, 0, 0, 0xFF, 0xFF];
    wide(12, 0).assert_decodes(&[0], &plain);
    wide(13, 0).assert_decodes(&[20], &[0; 13]);
}

/// A run of no bytes and so many copies of none, then `end`: 24,576 bytes if
/// `end` has two.
fn padded(end: [u8; 2]) -> Vec<u8> {
    let copies = [0x80, 0, 0].repeat(8_190);
    [&[0x7F, 0, 0, 0x55], &copies[..], &end].concat()
}

/// An encoding may take all of a window's 24,576 bytes; a longer one is cut,
/// also where the window's tile is not the last.
#[test]
fn window_limit() {
    let (first, last) = (padded([0x3F, 5]), padded([0xFF, 7]));
    assert_eq!(first.len(), WINDOW_LIMIT);
    let longer = |window: &[u8]| [&[0x80, 0, 0], window].concat();
    let pixels = |one: u8, other: u8| [&[one; 64][..], &[other]].concat();
    for size in [4, 8] {
        let pair = |one: &[u8], other: &[u8]| sized_drawable(size, [65, 1], 1, 1, &[one, other]);
        pair(&first, &last).assert_decodes(&[0, 0], &pixels(5, 7));
        pair(&longer(&first), &last).assert_decodes(&[20, 0], &pixels(0, 7));
        pair(&first, &longer(&last)).assert_decodes(&[0, 20], &pixels(5, 0));
    }
}

/// Two rows may share their pointers, and a window may lie in another.
#[test]
fn shared_and_overlapping_windows() {
    let call = drawable([65, 1], 1, 1, &[&[0x3F, 0x3F], &[0x00, 0x3F]]);
    let pixels = [0x3F; 65];
    call.assert_decodes(&[0, 0], &pixels);
    // The second window starts within the first tile's run: its value is the
    // second's opcode.
    let inside = call.with_pointer(5, 14);
    inside.assert_decodes(&[20, 21], &[0; 65]);
    let mut shared = call.clone();
    let row = shared.table[..16].to_vec();
    shared.table[16..32].copy_from_slice(&row);
    shared.row = 1;
    shared.assert_decodes(&[0, 0], &pixels);
}

/// A file of nothing but a pointer and its closing zero, whose last byte is the
/// tile.
#[test]
fn smallest_file() {
    let row = [2, 1, 1, 1, 0, 0, 0, 0, 0, 1, 0, 0, 0, 0, 0, 0];
    for (size, file) in [(4, words(&[7, 0])), (8, words(&[0, 15, 0, 0]))] {
        let call = |file: &[u8], compression| Call::new(file, row, compression).told(size);
        call(&file, 0).assert_decodes(&[0], &[0]);
        call(&file, 1).assert_decodes(&[20], &[0]);
        call(&file[..file.len() - 1], 0).assert_refused(14, 0);
        call(&[], 0).assert_refused(14, 0);
    }
}
