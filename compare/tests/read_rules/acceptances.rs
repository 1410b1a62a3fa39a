//! What accepted files give.

use xcf_compare::answer::Row;
use xcf_compare::files::EXAMPLE;
use xcf_compare::files::laid::{
    END, byte_property, channel, empty_image, grey_layer, image_start, lay, layered, masked_layer,
    property, with, with_byte, words,
};

use crate::assert_accepted;

/// The five numbers of the grey images.
const GREY: [u64; 5] = [1, 1, 1, 0, 0];

/// The row of `grey_layer` and, but for its flags, of `masked_layer`, if the
/// list is empty.
const LAYER: Row = [1, 1, 1, 1, 2, 98, 0, 98, 74, 1, 255, 1, 0, 0, 0, 0];

/// The row of a mask of `masked_layer`, if both lists are empty.
const MASK: Row = [2, 1, 1, 1, 2, 126, 0, 126, 74, 1, 255, 0, 0, 0, 0, 0];

/// The row of `channel`, if the list is empty.
const CHANNEL: Row = [3, 1, 1, 1, 2, 94, 0, 94, 74, 1, 255, 0, 0, 0, 0, 0];

/// The rows of `layered`.
const LAYERED: [Row; 3] = [
    [1, 65, 3, 4, 1, 75, 2, 78, 126, 2, 255, 3, 0, 0, 0, 0],
    [2, 65, 3, 1, 2, 150, 0, 150, 190, 2, 255, 0, 0, 0, 0, 0],
    [3, 70, 2, 1, 2, 214, 0, 215, 255, 2, 255, 0, 0, 0, 0, 2],
];

/// The row with other fields.
fn row_with(mut row: Row, fields: &[(usize, u32)]) -> Row {
    for &(field, value) in fields {
        row[field] = value;
    }
    row
}

#[test]
fn the_example() {
    let row = [3, 1, 1, 1, 2, 67, 1, 69, 133, 1, 255, 1, 0, 0, 0, 0];
    assert_accepted(&EXAMPLE, [1, 1, 1, 0, 1], &[row]);
}

#[test]
fn layer_mask_and_channel() {
    assert_accepted(&layered(), [70, 2, 0, 3, 1], &LAYERED);
    // Tiles may lie anywhere in the file, also in its structures.
    let file = with(&layered(), &[(126, 1), (130, 272), (194, 2), (190, 1)]);
    assert_accepted(&file, [70, 2, 0, 3, 1], &LAYERED);
    // The words behind the first level pointer may be any.
    let file = with(&layered(), &[(110, u32::MAX)]);
    assert_accepted(&file, [70, 2, 0, 3, 1], &LAYERED);
}

#[test]
fn empty_lists() {
    assert_accepted(&grey_layer(&[]), GREY, &[LAYER]);
    assert_accepted(&channel(&[]), GREY, &[CHANNEL]);
    let layer = row_with(LAYER, &[(11, 3)]);
    assert_accepted(&masked_layer(&[], &[]), GREY, &[layer, MASK]);
}

#[test]
fn no_rows() {
    for (version, tag) in [b"file\0", b"v001\0", b"v002\0", b"v003\0"]
        .into_iter()
        .enumerate()
    {
        for base in [0, 1] {
            let image = [1, 1, base, version as u64, 0];
            assert_accepted(&empty_image(tag, base as u32, &[]), image, &[]);
        }
    }
}

#[test]
fn bytes_behind_the_end() {
    let file = [&EXAMPLE[..], &[0xFF; 50]].concat();
    let row = [3, 1, 1, 1, 2, 67, 1, 69, 133, 1, 255, 1, 0, 0, 0, 0];
    assert_accepted(&file, [1, 1, 1, 0, 1], &[row]);
}

#[test]
fn compression_is_one_byte() {
    for compression in [0, 1] {
        let list = byte_property(17, &[compression]);
        let image = [1, 1, 0, 0, compression.into()];
        assert_accepted(&empty_image(b"file\0", 0, &list), image, &[]);
    }
    let list = [byte_property(17, &[1]), byte_property(17, &[0])].concat();
    assert_accepted(&empty_image(b"file\0", 0, &list), [1, 1, 0, 0, 0], &[]);
    let list = [byte_property(17, &[0]), byte_property(17, &[1])].concat();
    assert_accepted(&empty_image(b"file\0", 0, &list), [1, 1, 0, 0, 1], &[]);
}

#[test]
fn colour_maps() {
    for (version, tag) in [(1, b"v001\0"), (2, b"v002\0"), (3, b"v003\0")] {
        for count in [0_u32, 1, 2, 255, 256] {
            let colours = vec![0xFF; 3 * count as usize];
            let map = byte_property(1, &[&count.to_be_bytes()[..], &colours].concat());
            let image = [1, 1, 2, version, 0];
            assert_accepted(&empty_image(tag, 2, &map), image, &[]);
            assert_accepted(&empty_image(tag, 2, &map.repeat(2)), image, &[]);
            // An image that is not indexed may have one too.
            let image = [1, 1, 0, version, 0];
            assert_accepted(&empty_image(tag, 0, &map), image, &[]);
        }
    }
}

/// In the image's list only compressions and colour maps are looked into.
#[test]
fn untested_content_in_the_image() {
    let list = [5, 6, 7, 8, 9, 10, 11, 12, 13, 14, 20, 22].map(|kind| property(kind, &[u32::MAX]));
    let list = [
        list.concat(),
        property(15, &[u32::MAX; 2]),
        property(19, &[u32::MAX; 2]),
        byte_property(16, &[255; 3]),
        [2, 3, 4, 29].map(|kind| property(kind, &[])).concat(),
    ];
    assert_accepted(&empty_image(b"file\0", 1, &list.concat()), GREY, &[]);
}

/// Types that are skipped by their length; in a drawable's list type 1 is one
/// of them.
#[test]
fn skipped_types() {
    let mut kinds = vec![18, 21, 23, 24, 25, 26, 27, 28, 30, 31, 40, u32::MAX];
    // Types that are known ones but for a high bit.
    kinds.extend([256, 256 + 5, 256 + 17, 65_536 + 6, 1 << 31 | 8]);
    for length in [0, 1, 2, 3, 4, 5, 8, 30] {
        for &kind in &kinds {
            let list = byte_property(kind, &vec![0xFF; length]);
            assert_accepted(&empty_image(b"file\0", 1, &list), GREY, &[]);
        }
        for &kind in [1].iter().chain(&kinds) {
            let list = byte_property(kind, &vec![0xFF; length]);
            assert_accepted(&grey_layer(&list), GREY, &[LAYER]);
            assert_accepted(&channel(&list), GREY, &[CHANNEL]);
        }
    }
    // What would be a colour map with an old length word in the image's list.
    let list = byte_property(1, &[0, 0, 0, 1, 9]);
    assert_accepted(&grey_layer(&list), GREY, &[LAYER]);
    assert_accepted(&channel(&list), GREY, &[CHANNEL]);
}

/// What only matters in other lists, or nowhere, with any content.
#[test]
fn meaningless_in_a_layer() {
    let list = [9, 10, 12, 13, 14, 20, 22].map(|kind| property(kind, &[u32::MAX]));
    let list = [
        list.concat(),
        property(19, &[u32::MAX; 2]),
        byte_property(16, &[255; 3]),
        byte_property(17, &[255]),
        [3, 4].map(|kind| property(kind, &[])).concat(),
    ];
    assert_accepted(&grey_layer(&list.concat()), GREY, &[LAYER]);
}

/// The same in a channel and in a mask, where also types 5 and 11 are passed
/// over.
#[test]
fn meaningless_in_a_channel() {
    let list = [5, 7, 9, 10, 11, 12, 13, 14, 20, 22].map(|kind| property(kind, &[u32::MAX]));
    let list = [
        list.concat(),
        property(15, &[u32::MAX; 2]),
        property(19, &[u32::MAX; 2]),
        byte_property(16, &[255; 3]),
        byte_property(17, &[255]),
        [2, 29].map(|kind| property(kind, &[])).concat(),
    ]
    .concat();
    assert_accepted(&channel(&list), GREY, &[CHANNEL]);
    let layer = row_with(LAYER, &[(11, 3)]);
    assert_accepted(&masked_layer(&[], &list), GREY, &[layer, MASK]);
}

#[test]
fn flags_of_a_layer() {
    for (list, flags) in [
        (property(2, &[]), 1 + 8),
        (property(29, &[]), 1 + 16),
        (property(3, &[]), 1),
        (property(4, &[]), 1),
        (property(8, &[0]), 0),
        (property(8, &[1]), 1),
        ([property(29, &[]), property(2, &[])].concat(), 1 + 8 + 16),
        (property(2, &[]).repeat(3), 1 + 8),
    ] {
        let layer = row_with(LAYER, &[(11, flags)]);
        assert_accepted(&grey_layer(&list), GREY, &[layer]);
    }
}

#[test]
fn flags_of_channels_and_masks() {
    for (list, flags) in [
        (property(2, &[]), 0),
        (property(29, &[]), 0),
        (property(3, &[]), 8),
        (property(4, &[]), 4),
        (property(8, &[0]), 0),
        (property(8, &[1]), 1),
        ([property(4, &[]), property(3, &[])].concat(), 4 + 8),
    ] {
        let row = row_with(CHANNEL, &[(11, flags)]);
        assert_accepted(&channel(&list), GREY, &[row]);
        let layer = row_with(LAYER, &[(11, 3)]);
        let mask = row_with(MASK, &[(11, flags)]);
        assert_accepted(&masked_layer(&[], &list), GREY, &[layer, mask]);
    }
}

/// The layer's list of 12 bytes moves the mask's to 138.
#[test]
fn apply_mask() {
    for (list, with_mask) in [
        (property(11, &[0]), 1),
        (property(11, &[1]), 1 + 2),
        (property(20, &[0]), 1 + 2),
    ] {
        assert_accepted(&grey_layer(&list), GREY, &[LAYER]);
        let layer = row_with(LAYER, &[(11, with_mask)]);
        let mask = row_with(MASK, &[(5, 138), (7, 138)]);
        assert_accepted(&masked_layer(&list, &[]), GREY, &[layer, mask]);
    }
}

#[test]
fn opacity() {
    for opacity in [0, 1, 128, 254, 255] {
        let list = property(6, &[opacity]);
        let layer = row_with(LAYER, &[(10, opacity)]);
        assert_accepted(&grey_layer(&list), GREY, &[layer]);
        let row = row_with(CHANNEL, &[(10, opacity)]);
        assert_accepted(&channel(&list), GREY, &[row]);
        let layer = row_with(LAYER, &[(11, 3)]);
        let mask = row_with(MASK, &[(10, opacity)]);
        assert_accepted(&masked_layer(&[], &list), GREY, &[layer, mask]);
    }
}

#[test]
fn mode_is_a_layers_only() {
    for mode in [0, 21, 22, u32::MAX] {
        let list = property(7, &[mode]);
        let layer = row_with(LAYER, &[(14, mode)]);
        assert_accepted(&grey_layer(&list), GREY, &[layer]);
        assert_accepted(&channel(&list), GREY, &[CHANNEL]);
        let layer = row_with(LAYER, &[(11, 3), (14, mode)]);
        let mask = row_with(MASK, &[(5, 138), (7, 138)]);
        assert_accepted(&masked_layer(&list, &[]), GREY, &[layer, mask]);
    }
}

/// A mask has its layer's offsets, whatever its own list says.
#[test]
fn offsets() {
    let list = property(15, &[7, u32::MAX]);
    let layer = row_with(LAYER, &[(12, 7), (13, u32::MAX)]);
    assert_accepted(&grey_layer(&list), GREY, &[layer]);
    assert_accepted(&channel(&list), GREY, &[CHANNEL]);
    let layer = row_with(LAYER, &[(11, 3), (12, 7), (13, u32::MAX)]);
    let mask = row_with(MASK, &[(5, 142), (7, 142), (12, 7), (13, u32::MAX)]);
    let own = property(15, &[8, 9]);
    assert_accepted(&masked_layer(&list, &own), GREY, &[layer, mask]);
    let layer = row_with(LAYER, &[(11, 3)]);
    assert_accepted(&masked_layer(&[], &own), GREY, &[layer, MASK]);
}

#[test]
fn last_of_a_repeated_type_stands() {
    let twice =
        |kind, one: &[u32], other: &[u32]| [property(kind, one), property(kind, other)].concat();
    for (list, fields) in [
        (twice(6, &[9], &[3]), vec![(10, 3)]),
        (twice(6, &[3], &[255]), vec![(10, 255)]),
        (twice(7, &[5], &[0]), vec![(14, 0)]),
        (twice(7, &[0], &[5]), vec![(14, 5)]),
        (twice(8, &[0], &[1]), vec![(11, 1)]),
        (twice(8, &[1], &[0]), vec![(11, 0)]),
        (twice(15, &[1, 2], &[3, 4]), vec![(12, 3), (13, 4)]),
        (twice(15, &[3, 4], &[0, 0]), vec![(12, 0), (13, 0)]),
    ] {
        assert_accepted(&grey_layer(&list), GREY, &[row_with(LAYER, &fields)]);
    }
    for (one, other, flags) in [(0, 1, 3), (1, 0, 1)] {
        let list = twice(11, &[one], &[other]);
        let layer = row_with(LAYER, &[(11, flags)]);
        let mask = row_with(MASK, &[(5, 150), (7, 150)]);
        assert_accepted(&masked_layer(&list, &[]), GREY, &[layer, mask]);
    }
}

#[test]
fn types_and_depths() {
    let map = property(1, &[0]);
    for (kind, depth) in [(0, 3), (1, 4), (2, 1), (3, 2), (4, 1), (5, 2)] {
        let file = lay(&[
            (0, &image_start(b"v001\0", kind / 2)),
            (26, &map),
            (38, &words(&END)),
            (46, &words(&[58, 0, 0])),
            (58, &words(&[1, 1, kind, 0, 0, 0, 90, 0])),
            (90, &words(&[1, 1, depth, 110, 0])),
            (110, &words(&[1, 1, 4, 0])),
        ]);
        let layer = [1, 1, 1, depth, kind, 74, 0, 74, 118, 1, 255, 1, 0, 0, 0, 0];
        let image = [1, 1, (kind / 2).into(), 1, 0];
        assert_accepted(&file, image, &[layer]);
    }
}

#[test]
fn names() {
    // A zero byte inside a name is one of its bytes.
    let file = with_byte(&layered(), 75, 0);
    assert_accepted(&file, [70, 2, 0, 3, 1], &LAYERED);
    // A name of seven zero bytes for the mask; what follows moves by 8.
    let mut file = with(&layered(), &[(146, 8)]);
    file.splice(158..158, words(&END));
    let moved = [(51, 210), (166, 170), (182, 190), (231, 235), (247, 255)];
    let file = with(&file, &moved);
    let mut rows = LAYERED;
    rows[1] = row_with(rows[1], &[(6, 7), (7, 158), (8, 198)]);
    rows[2] = row_with(rows[2], &[(5, 222), (7, 223), (8, 263)]);
    assert_accepted(&file, [70, 2, 0, 3, 1], &rows);
}

/// The file with a name where there is an empty one, whose length word is given.
fn named(file: &[u8], length: usize, name: &[u8]) -> Vec<u8> {
    let mut file = with(file, &[(length, name.len() as u32 + 1)]);
    file.splice(length + 4..length + 4, [name, &[0]].concat());
    file
}

/// A name that is not UTF-8 has a flag beside those of the list, and changes
/// nothing else.
#[test]
fn names_that_are_not_utf8() {
    for (name, flag) in [
        (&b"\xE4"[..], 32),
        (b"Fl\xE4che", 32),
        (b"\xC3", 32),
        (b"\xA4\xC3", 32),
        (b"\xC3\xA4", 0),
        (b"\0\0", 0),
    ] {
        let fields = |list: u32, flags: u32| {
            let count = name.len() as u32;
            [(6, count), (7, list + count + 1), (11, flags + flag)]
        };
        let list = [property(2, &[]), property(29, &[])].concat();
        let layer = row_with(LAYER, &fields(98, 1 + 8 + 16));
        assert_accepted(&named(&grey_layer(&list), 94, name), GREY, &[layer]);
        let list = property(4, &[]);
        let rows = [row_with(LAYER, &[(11, 3)]), row_with(MASK, &fields(126, 4))];
        assert_accepted(&named(&masked_layer(&[], &list), 122, name), GREY, &rows);
        let list = property(3, &[]);
        let row = row_with(CHANNEL, &fields(94, 8));
        assert_accepted(&named(&channel(&list), 90, name), GREY, &[row]);
    }
}

/// The largest side, 256 tiles wide; 16,383 takes as many, 16,320 one less.
#[test]
fn wide_channel() {
    for (side, count) in [
        (16_384, 256),
        (16_383, 256),
        (16_320, 255),
        (65, 2),
        (64, 1),
    ] {
        let sides = [14, 55, 105, 125].map(|place| (place, side));
        let mut file = with(&EXAMPLE, &sides)[..133].to_vec();
        file.extend(words(&Vec::from_iter(1..=count)));
        file.extend(words(&[0]));
        let row = [3, side, 1, 1, 2, 67, 1, 69, 133, count, 255, 1, 0, 0, 0, 0];
        assert_accepted(&file, [side.into(), 1, 1, 0, 1], &[row]);
    }
}

/// The example with its channel pointer twice, so that all else moves by 4.
#[test]
fn same_pointer_twice() {
    let mut file = EXAMPLE[..47].to_vec();
    file.extend(words(&[59, 59, 0]));
    file.extend_from_slice(&EXAMPLE[55..]);
    let file = with(&file, &[(105, 109), (121, 129), (137, 145)]);
    let row = [3, 1, 1, 1, 2, 71, 1, 73, 137, 1, 255, 1, 0, 0, 0, 0];
    let rows = [row, row_with(row, &[(15, 1)])];
    assert_accepted(&file, [1, 1, 1, 0, 1], &rows);
}

/// As many layers and channels as there may be, each layer with a mask: all
/// 128 rows are used, and all pointers are the same.
#[test]
fn full_table() {
    let file = lay(&[
        (0, &image_start(b"file\0", 1)),
        (26, &words(&END)),
        (34, &words(&[398; 48])),
        (226, &words(&[0])),
        (230, &words(&[430; 32])),
        (358, &words(&[0])),
        (362, &words(&[1, 1, 1, 382, 0])),
        (382, &words(&[1, 1, 1, 0])),
        (398, &words(&[1, 1, 2, 0, 0, 0, 362, 430])),
        (430, &words(&[1, 1, 0, 0, 0, 362])),
    ]);
    let layer = [1, 1, 1, 1, 2, 414, 0, 414, 390, 1, 255, 3, 0, 0, 0, 0];
    let mask = [2, 1, 1, 1, 2, 442, 0, 442, 390, 1, 255, 0, 0, 0, 0, 0];
    let channel = row_with(mask, &[(0, 3)]);
    let mut rows = Vec::new();
    for owner in (0..96).step_by(2) {
        rows.push(row_with(layer, &[(15, owner)]));
        rows.push(row_with(mask, &[(15, owner)]));
    }
    for own in 96..128 {
        rows.push(row_with(channel, &[(15, own)]));
    }
    assert_accepted(&file, GREY, &rows);
}
