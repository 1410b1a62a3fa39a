//! Structures that are written, byte for byte.

use xcf_compare::answer::{Row, TABLE_LENGTH};
use xcf_compare::files::EXAMPLE;
use xcf_compare::files::laid::{END, byte_property, lay, property, with_byte, words};
use xcf_compare::implementation::ALL;

use crate::{CHANNEL, Call, LAYER, MASK, ROWS, word};

#[test]
fn the_example() {
    assert_eq!(Call::example().file(), EXAMPLE);
}

#[test]
fn no_rows() {
    for base in [0, 1] {
        let file = lay(&[
            (0, b"gimp xcf file\0"),
            (14, &words(&[16_384, 1, base])),
            (26, &byte_property(17, &[1])),
            (35, &words(&END)),
            (43, &words(&[0, 0])),
        ]);
        let call = Call::new([16_384, 1], base, &[]);
        assert_eq!(call.file(), file);
        // Without rows no name is used: the call above lends five bytes of
        // names, this one none, and the file is the same.
        assert_eq!(call.named(b"").file(), file);
    }
}

/// A layer that is active, its mask, which is the selection and active, and a
/// channel.
#[test]
fn layer_mask_and_channel() {
    let layer = [1, 2, 1, 2, 3, 1, 2, 0, 0, 1, 7, 10, 5, u32::MAX, 21, 0];
    let mask = [2, 2, 1, 1, 2, 0, 1, 0, 0, 1, 8, 13, 5, u32::MAX, 0, 0];
    let channel = [3, 1, 1, 1, 2, 4, 0, 0, 0, 1, 9, 0, 0, 0, 0, 2];
    let call = Call::grey(&[layer, mask, channel])
        .named(b"xab\0")
        .with_pixels(&[1, 2, 3, 4, 5, 6, 7]);
    let layer_list = [
        property(2, &[]),
        property(6, &[7]),
        property(8, &[0]),
        property(11, &[1]),
        property(7, &[21]),
        property(15, &[5, u32::MAX]),
        words(&END),
    ];
    let mask_list = [
        property(4, &[]),
        property(3, &[]),
        property(6, &[8]),
        property(8, &[1]),
        words(&END),
    ];
    let channel_list = [property(6, &[9]), property(8, &[0]), words(&END)];
    let file = lay(&[
        (0, b"gimp xcf v002\0"),
        (14, &words(&[1, 1, 1])),
        (26, &byte_property(17, &[1])),
        (35, &words(&END)),
        (43, &words(&[59, 0])),
        (51, &words(&[313, 0])),
        // The layer.
        (59, &words(&[2, 1, 3])),
        (71, &words(&[3])),
        (75, b"ab\0"),
        (78, &layer_list.concat()),
        (158, &words(&[166, 208])),
        (166, &words(&[2, 1, 2, 186, 0])),
        (186, &words(&[2, 1, 202, 0])),
        (202, &[0xFE, 1, 3, 0xFE, 2, 4]),
        // The mask.
        (208, &words(&[2, 1])),
        (216, &words(&[2])),
        (220, b"x\0"),
        (222, &mask_list.concat()),
        (270, &words(&[274])),
        (274, &words(&[2, 1, 1, 294, 0])),
        (294, &words(&[2, 1, 310, 0])),
        (310, &[0xFE, 5, 6]),
        // The channel.
        (313, &words(&[1, 1])),
        (321, &words(&[0])),
        (325, &channel_list.concat()),
        (357, &words(&[361])),
        (361, &words(&[1, 1, 1, 381, 0])),
        (381, &words(&[1, 1, 397, 0])),
        (397, &[0xFF, 7]),
    ]);
    assert_eq!(call.file(), file);
}

/// The list of a layer, with each of its flags and without.
#[test]
fn lists_of_layers() {
    for flags in [0, 1, 8, 9] {
        let list = [
            property(2, &[]).repeat(flags as usize / 8),
            property(6, &[255]),
            property(8, &[flags % 2]),
            property(7, &[0]),
            property(15, &[0, 0]),
            words(&END),
        ]
        .concat();
        let file = Call::grey(&[LAYER]).with(0, 11, flags).file();
        assert_eq!(file[71..][..list.len()], list);
        assert_eq!(word(&file, 71 + list.len()), 79 + list.len() as u32);
    }
    // With a mask there is a property for applying it.
    for apply in [0, 1] {
        let call = Call::grey(&[LAYER, MASK]).with(0, 11, 2 * apply);
        let list = [
            property(6, &[255]),
            property(8, &[0]),
            property(11, &[apply]),
        ];
        assert_eq!(call.file()[71..107], list.concat());
    }
}

/// The list of a channel, with each of its flags and without.
#[test]
fn lists_of_channels() {
    for flags in [0, 1, 4, 5, 8, 9, 12, 13] {
        let list = [
            property(4, &[]).repeat(flags as usize / 4 % 2),
            property(3, &[]).repeat(flags as usize / 8),
            property(6, &[255]),
            property(8, &[flags % 2]),
            words(&END),
        ]
        .concat();
        let file = Call::example().with(0, 11, flags).file();
        assert_eq!(file[69..][..list.len()], list);
        assert_eq!(word(&file, 69 + list.len()), 73 + list.len() as u32);
    }
}

/// Only the modes 19 to 21, of any layer, need version 2.
#[test]
fn versions() {
    let call = Call::rows();
    assert_eq!(call.file()[..14], *b"gimp xcf file\0");
    for mode in 0..=21 {
        let tag = if mode >= 19 { b"v002\0" } else { b"file\0" };
        for row in [0, 2] {
            let file = call
                .with(0, 14, 0)
                .with(2, 14, 0)
                .with(row, 14, mode)
                .file();
            assert_eq!(file[9..14], *tag, "{mode}");
        }
    }
    let both = call.with(0, 14, 19).with(2, 14, 20);
    assert_eq!(both.file()[9..14], *b"v002\0");
}

/// A name has its bytes and a zero, but an empty one has none of these.
#[test]
fn names() {
    let call = Call::example();
    let empty = call.with(0, 6, 0).file();
    assert_eq!(empty.len(), 141);
    assert_eq!(word(&empty, 63), 0);
    assert_eq!(empty[67..75], words(&[6, 4]));
    for count in [1, 2, 1_023, 1_024] {
        let names: Vec<u8> = (0..2_000).map(|i| i as u8).collect();
        let named = call.named(&names).with(0, 5, 250).with(0, 6, count);
        let file = named.flagged(0, 32).file();
        let count = count as usize;
        assert_eq!(file.len(), 142 + count);
        assert_eq!(word(&file, 63), count as u32 + 1);
        assert_eq!(file[67..67 + count], names[250..250 + count]);
        assert_eq!(file[67 + count..][..9], [0, 0, 0, 0, 6, 0, 0, 0, 4]);
    }
}

/// For a name that is not UTF-8 only its bytes are others.
#[test]
fn names_that_are_not_utf8() {
    let call = Call::example().named(b"\xE4").flagged(0, 32);
    assert_eq!(call.file(), with_byte(&EXAMPLE, 67, 0xE4));
    let call = Call::rows();
    let mut file = call.file();
    let latin_1 = call.named(b"L\xE4yer").flagged(0, 32).flagged(2, 32);
    // The two layers' pointers; a name lies behind three fields and its length.
    for pointer in [43, 47] {
        let place = word(&file, pointer) as usize + 16 + 1;
        assert_eq!(file[place], b'a');
        file[place] = 0xE4;
    }
    assert_eq!(latin_1.file(), file);
}

/// Names may share bytes, come in any order, and hold zeros.
#[test]
fn names_anywhere() {
    let mut rows = [CHANNEL; 3];
    for (index, name) in [[1, 2], [0, 3], [3, 0]].into_iter().enumerate() {
        [rows[index][5], rows[index][6]] = name;
        rows[index][15] = index as u32;
    }
    let file = Call::grey(&rows).named(b"a\0b").file();
    for (pointer, string) in [(47, &b"\0\0\0\x03\0b\0"[..]), (51, b"\0\0\0\x04a\0b\0")] {
        let place = word(&file, pointer) as usize + 8;
        assert_eq!(file[place..][..string.len()], *string);
    }
}

/// The mask's pointer leads directly behind its layer's tiles.
#[test]
fn mask_pointers() {
    let file = Call::rows().file();
    // The two layers' and the two channels' pointers.
    assert_eq!(word(&file, 43), 67);
    assert_eq!(word(&file, 51), 0);
    assert_eq!(word(&file, 63), 0);
    // The layer: 12 bytes, its name, its list, 8 of pointers.
    let pointers = 67 + 12 + 10 + 72;
    let hierarchy = pointers + 8;
    assert_eq!(word(&file, pointers) as usize, hierarchy);
    let tile = hierarchy + 36;
    assert_eq!(word(&file, hierarchy + 28) as usize, tile);
    // Four streams of six zeros.
    assert_eq!(file[tile..tile + 8], [5, 0, 5, 0, 5, 0, 5, 0]);
    let mask = tile + 8;
    assert_eq!(word(&file, pointers + 4) as usize, mask);
    assert_eq!(file[mask..mask + 12], words(&[2, 3, 0]));
    // Behind the mask's tile is the second layer, which has none.
    let second = mask + 12 + 32 + 4 + 36 + 2;
    assert_eq!(word(&file, 47) as usize, second);
    assert_eq!(file[second..second + 12], words(&[65, 1, 0]));
    assert_eq!(word(&file, second + 12 + 8 + 68 + 4), 0);
}

/// Layers may lie anywhere and be larger than the canvas.
#[test]
fn layers_beside_the_canvas() {
    for offset in [0, 1, 16_384, 1 << 31, u32::MAX] {
        let call = Call::grey(&[LAYER])
            .with(0, 1, 60)
            .with_pixels(&[0; 60])
            .with(0, 12, offset)
            .with(0, 13, !offset);
        assert_eq!(call.file()[107..123], words(&[15, 8, offset, !offset]));
    }
}

/// Asserts that all readers accept the file and give the rows, but for the
/// places in it.
fn assert_reads_back(file: &[u8], rows: &[Row]) {
    for by in ALL {
        let mut table = vec![0; TABLE_LENGTH];
        let answer = (by.read)(file, &mut table);
        assert_eq!((answer.number, answer.rows), (0, rows.len() as u64));
        let (found, _) = table.as_chunks_mut();
        for (row, found) in rows.iter().zip(found) {
            for place in [5, 7, 8] {
                found[place] = row[place];
            }
            assert_eq!(found, row);
        }
    }
}

#[test]
fn five_rows_read_back() {
    assert_reads_back(&Call::rows().file(), &ROWS);
}

/// 48 layers, each with a mask, and 32 channels.
#[test]
fn most_rows() {
    let mut rows: Vec<Row> = [LAYER, MASK].repeat(48);
    rows.extend([CHANNEL; 32]);
    for (index, row) in rows.iter_mut().enumerate() {
        let is_mask = row[0] == 2;
        row[15] = index as u32 - u32::from(is_mask);
        row[10] = index as u32;
    }
    let file = Call::grey(&rows).file();
    assert_reads_back(&file, &rows);
    assert_eq!(word(&file, 43 + 4 * 48), 0);
    assert_eq!(word(&file, 43 + 4 * (48 + 1 + 32)), 0);
}
