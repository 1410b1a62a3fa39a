//! Every way in which a row is unusable, and the nearest rows that are usable.

use xcf_compare::answer::Row;

use crate::{CHANNEL, Call, LAYER, MASK};

/// Numbers that would be 1 if their high bits were lost.
const HIGH: [u32; 3] = [256 + 1, 65_536 + 1, (1 << 31) + 1];

/// The rows of layers, masks and channels among the five usable ones.
const LAYERS: [usize; 2] = [0, 2];
const MASKED: usize = 0;
const THE_MASK: usize = 1;
const CHANNELS: [usize; 2] = [3, 4];

/// Rows of one pixel, each its own owner but for masks.
fn owned(mut rows: Vec<Row>) -> Vec<Row> {
    for (index, row) in rows.iter_mut().enumerate() {
        row[15] = index as u32 - u32::from(row[0] == 2 && index > 0);
    }
    rows
}

#[test]
fn kinds_above_3() {
    for row in CHANNELS {
        let call = Call::rows();
        call.assert_all_bad(row, 0, &[4, 5, 256 + 3, 65_536 + 3, u32::MAX]);
    }
    // Also where nothing else is in the row.
    Call::rows().assert_all_bad(5, 0, &[4, 255, 256, 65_536, 1 << 31]);
}

#[test]
fn numbers_in_unused_rows() {
    for row in [5, 6, 127] {
        for field in 1..16 {
            Call::rows().assert_all_bad(row, field, &[1, 256, 1 << 31, u32::MAX]);
        }
    }
    Call::grey(&[]).assert_all_bad(0, 15, &[1]);
}

#[test]
fn used_rows_behind_unused_ones() {
    let mut channel = CHANNEL;
    for row in [1, 2, 127] {
        channel[15] = row as u32;
        Call::grey(&[]).with_row(row, channel).assert_bad(row);
    }
    let unused = Call::rows().with_row(3, [0; 16]);
    unused.assert_bad(4);
    unused.with_row(4, [0; 16]).assert_refused(11, 0);
}

#[test]
fn sides_of_layers() {
    for row in LAYERS {
        for field in [1, 2] {
            let call = Call::rows();
            call.assert_all_bad(row, field, &[0, 16_385, 65_536 + 2, 1 << 31, u32::MAX]);
        }
    }
    // The tile count may be what 32 bits make of the sides.
    for [width, height, count] in [
        [0, 1, 0],
        [1 << 22, 1 << 22, 0],
        [u32::MAX, 64, 1 << 26],
        [65_536, 65_536, 1 << 20],
    ] {
        let call = Call::grey(&[LAYER]).with(0, 1, width).with(0, 2, height);
        call.with(0, 9, count).assert_bad(0);
    }
    let mut longest = LAYER;
    [longest[1], longest[9]] = [16_384, 256];
    Call::grey(&[longest]).file();
}

/// A mask has its layer's sides, whatever the canvas's are.
#[test]
fn sides_of_masks() {
    let call = Call::rows();
    call.assert_all_bad(THE_MASK, 1, &[0, 1, 3, 65_536 + 2]);
    call.assert_all_bad(THE_MASK, 2, &[0, 2, 4, 65_536 + 3]);
    call.with(THE_MASK, 1, 3).with(THE_MASK, 2, 2).assert_bad(1);
}

/// A channel has the canvas's sides.
#[test]
fn sides_of_channels() {
    for row in CHANNELS {
        let call = Call::rows();
        call.assert_all_bad(row, 1, &[0, 2, 4, 65_536 + 3]);
        call.assert_all_bad(row, 2, &[0, 1, 3, 65_536 + 2]);
    }
    Call {
        width: 2,
        ..Call::rows()
    }
    .assert_bad(3);
}

#[test]
fn depths() {
    for (base, layer_type, depth) in [(0, 0, 3), (0, 1, 4), (1, 2, 1), (1, 3, 2)] {
        let mut row = LAYER;
        [row[3], row[4]] = [depth, layer_type];
        let call = Call::new([1, 1], base, &[row]);
        call.file();
        for other in (0..=5).filter(|&other| other != depth) {
            call.with(0, 3, other).assert_bad(0);
        }
        call.assert_all_bad(0, 3, &[256 + depth, 65_536 + depth, u32::MAX]);
    }
    for row in [1, 3, 4] {
        Call::rows().assert_all_bad(row, 3, &[0, 2, 3, 4, 256 + 1, u32::MAX]);
    }
}

/// A layer's type is of the canvas's base, and never indexed.
#[test]
fn types_of_layers() {
    let depths = [3, 4, 1, 2, 1, 2];
    for base in [0, 1] {
        for layer_type in 0..6 {
            let mut row = LAYER;
            [row[3], row[4]] = [depths[layer_type as usize], layer_type];
            let call = Call::new([1, 1], base, &[row]);
            if layer_type / 2 == base {
                call.file();
            } else {
                call.assert_bad(0);
            }
        }
    }
    Call::grey(&[LAYER]).assert_all_bad(0, 4, &[6, 256 + 2, 65_536 + 2, (1 << 31) + 2]);
}

#[test]
fn types_of_masks_and_channels() {
    for row in [1, 3, 4] {
        Call::rows().assert_all_bad(row, 4, &[0, 1, 3, 4, 256 + 2, u32::MAX]);
    }
}

/// A name has at most 1,024 bytes.
#[test]
fn lengths_of_names() {
    for row in 0..5 {
        let call = Call::rows().named(&[b'n'; 5_000]);
        call.with(row, 6, 1_024).file();
        call.assert_all_bad(row, 6, &[1_025, 2_048, 4_000, 65_536, u32::MAX]);
    }
}

/// A name lies within the five lent bytes, also an empty one.
#[test]
fn places_of_names() {
    for row in 0..5 {
        let call = Call::rows();
        for (place, count) in [(0, 5), (4, 1), (5, 0), (0, 0)] {
            call.with(row, 5, place).with(row, 6, count).file();
        }
        for (place, count) in [
            (0, 6),
            (1, 5),
            (5, 1),
            (6, 0),
            (u32::MAX, 0),
            (u32::MAX, 1),
            (u32::MAX - 4, 5),
            (u32::MAX - 1_023, 1_024),
            (u32::MAX - 1_022, 1_024),
        ] {
            call.with(row, 5, place).with(row, 6, count).assert_bad(row);
        }
    }
    let call = Call::grey(&[LAYER]).named(b"");
    call.file();
    call.with(0, 5, 1).assert_bad(0);
    call.with(0, 6, 1).assert_bad(0);
}

/// Flag 32 says of every kind of row whether its name is UTF-8; the bytes before
/// and behind the name do not matter.
#[test]
fn flags_of_names() {
    for row in 0..5 {
        let call = Call::rows().named(b"Layer \xC3\xA4\xE4 ");
        for (place, count, flag) in [
            (0, 8, 0),
            (6, 2, 0),
            (7, 0, 0),
            (10, 0, 0),
            (0, 7, 32),
            (6, 1, 32),
            (7, 1, 32),
            (7, 2, 32),
            (8, 1, 32),
            (6, 3, 32),
            (0, 10, 32),
        ] {
            let named = call.with(row, 5, place).with(row, 6, count);
            named.flagged(row, flag).file();
            named.flagged(row, 32 - flag).assert_bad(row);
        }
    }
}

/// The flag stands beside the others that a row may have, and makes none right.
#[test]
fn flags_beside_that_of_the_name() {
    for (row, own) in [(0, 11), (1, 13), (2, 9), (3, 13), (4, 13)] {
        let call = Call::rows()
            .named(b"Layer\x80")
            .with(row, 5, 5)
            .with(row, 6, 1)
            // The one that is active or the selection is the row itself.
            .with(2, 11, 0)
            .with(3, 11, 0)
            .with(4, 11, 0);
        for flags in (0..64).filter(|flags| flags & !own == 32) {
            call.with(row, 11, flags).file();
        }
        for flags in (0..64).filter(|flags| flags & !own != 32) {
            call.with(row, 11, flags).assert_bad(row);
        }
        call.assert_all_bad(row, 11, &[32 + 64, 32 + 256, 32 + (1 << 31), u32::MAX]);
    }
}

/// The places of the properties and of the tile pointers are 0.
#[test]
fn places_in_a_file() {
    for row in 0..5 {
        for field in [7, 8] {
            Call::rows().assert_all_bad(row, field, &[1, 69, 256, 1 << 31, u32::MAX]);
        }
    }
}

#[test]
fn tile_counts() {
    for (row, count) in [1, 1, 2, 1, 1].into_iter().enumerate() {
        let others = [0, count - 1, count + 1, 256 + count, 65_536 + count];
        let others = others.into_iter().filter(|&other| other != count);
        Call::rows().assert_all_bad(row, 9, &others.collect::<Vec<u32>>());
    }
}

#[test]
fn opacities() {
    for row in 0..5 {
        for opacity in [0, 1, 255] {
            Call::rows().with(row, 10, opacity).file();
        }
        Call::rows().assert_all_bad(row, 10, &[256, 257, 65_536, 1 << 31, u32::MAX]);
    }
}

/// Layers are visible, apply a mask, are active; masks and channels are
/// visible, the selection, active. None is a group, and all names are UTF-8.
#[test]
fn flags() {
    for (row, own) in [(0, 11), (1, 13), (2, 11), (3, 13), (4, 13)] {
        for flag in (0..32).map(|bit| 1 << bit) {
            let call = Call::rows().flagged(row, flag);
            if flag & !own != 0 {
                call.assert_bad(row);
            }
        }
        Call::rows().with(row, 11, 0).file();
        Call::rows().with(row, 11, 1).file();
    }
    Call::rows()
        .flagged(1, 12)
        .with(3, 11, 0)
        .with(4, 11, 0)
        .file();
}

/// Only a layer directly before a mask may apply it.
#[test]
fn apply_flags() {
    Call::rows().flagged(2, 2).assert_bad(2);
    let mask = Call::grey(&owned(vec![LAYER, MASK, LAYER]));
    mask.flagged(0, 2).file();
    mask.flagged(2, 2).assert_bad(2);
    Call::grey(&[LAYER]).flagged(0, 2).assert_bad(0);
    let channel = Call::grey(&owned(vec![LAYER, CHANNEL]));
    channel.flagged(0, 2).assert_bad(0);
}

/// At most one mask or channel is the selection.
#[test]
fn second_selection() {
    let rows = vec![LAYER, MASK, LAYER, MASK, CHANNEL, CHANNEL];
    let call = Call::grey(&owned(rows));
    for (first, second) in [(1, 3), (1, 4), (3, 5), (4, 5)] {
        call.flagged(first, 4).file();
        call.flagged(first, 4).flagged(second, 4).assert_bad(second);
    }
    let three = call.flagged(1, 4).flagged(4, 4).flagged(5, 4);
    three.assert_bad(4);
}

/// At most one layer is active, and beside it at most one mask or channel.
#[test]
fn second_active() {
    let rows = vec![LAYER, MASK, LAYER, MASK, CHANNEL, CHANNEL];
    let call = Call::grey(&owned(rows));
    call.flagged(0, 8).flagged(2, 8).assert_bad(2);
    for (first, second) in [(1, 3), (1, 4), (3, 5), (4, 5)] {
        let one = call.flagged(2, 8).flagged(first, 8);
        one.file();
        one.flagged(second, 8).assert_bad(second);
    }
    // The selection may be active, and another one not be.
    call.flagged(4, 12).file();
    call.flagged(4, 8).flagged(5, 4).file();
}

/// A mask has its layer's offsets, a channel none.
#[test]
fn offsets() {
    for field in [12, 13] {
        let call = Call::rows();
        call.assert_all_bad(THE_MASK, field, &[0, 1, 8, 1 << 31]);
        for row in CHANNELS {
            call.assert_all_bad(row, field, &[1, 256, 1 << 31, u32::MAX]);
        }
        for offset in [0, 1 << 31, u32::MAX] {
            call.with(2, field, offset).file();
            call.with(MASKED, field, offset)
                .with(THE_MASK, field, offset)
                .file();
        }
    }
}

#[test]
fn modes() {
    for row in LAYERS {
        let call = Call::rows();
        call.with(row, 14, 0).file();
        call.with(row, 14, 21).file();
        call.assert_all_bad(row, 14, &[22, 23, 28, 256, 65_536, u32::MAX]);
    }
    for row in [1, 3, 4] {
        Call::rows().assert_all_bad(row, 14, &[1, 21, 256, u32::MAX]);
    }
}

/// A mask's owner is the row before it; others own themselves.
#[test]
fn owners() {
    let call = Call::rows();
    for (row, owner) in [0, 0, 2, 3, 4].into_iter().enumerate() {
        let others = (0..6).filter(|&other| other != owner);
        call.assert_all_bad(row, 15, &others.collect::<Vec<u32>>());
        call.assert_all_bad(row, 15, &HIGH.map(|high| high - 1 + owner));
    }
}

/// A mask comes directly behind a layer.
#[test]
fn loose_masks() {
    Call::grey(&owned(vec![MASK])).assert_bad(0);
    Call::grey(&owned(vec![MASK, LAYER])).assert_bad(0);
    Call::grey(&owned(vec![LAYER, MASK, MASK])).assert_bad(2);
    Call::grey(&[LAYER, MASK, MASK]).assert_bad(2);
    Call::grey(&owned(vec![CHANNEL, MASK])).assert_bad(1);
    Call::grey(&owned(vec![LAYER, CHANNEL, MASK])).assert_bad(2);
}

#[test]
fn forty_ninth_layer() {
    Call::grey(&owned(vec![LAYER; 48])).file();
    Call::grey(&owned(vec![LAYER; 49])).assert_bad(48);
    Call::grey(&owned(vec![LAYER; 128])).assert_bad(48);
    let mut rows = [LAYER, MASK].repeat(48);
    Call::grey(&owned(rows.clone())).file();
    rows.push(LAYER);
    Call::grey(&owned(rows)).assert_bad(96);
}

#[test]
fn thirty_third_channel() {
    Call::grey(&owned(vec![CHANNEL; 32])).file();
    Call::grey(&owned(vec![CHANNEL; 33])).assert_bad(32);
    Call::grey(&owned(vec![CHANNEL; 128])).assert_bad(32);
    let rows = [&[LAYER; 40][..], &[CHANNEL; 33]].concat();
    Call::grey(&owned(rows)).assert_bad(72);
}

#[test]
fn layers_after_channels() {
    Call::grey(&owned(vec![CHANNEL, LAYER])).assert_bad(1);
    Call::grey(&owned(vec![LAYER, CHANNEL, LAYER])).assert_bad(2);
    Call::grey(&owned(vec![LAYER, CHANNEL, CHANNEL, LAYER, MASK])).assert_bad(3);
}
