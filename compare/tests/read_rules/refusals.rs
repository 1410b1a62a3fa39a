//! Every number that the reader refuses with, at its place.

use xcf_compare::files::EXAMPLE;
use xcf_compare::files::laid::{
    byte_property, channel, empty_image, grey_layer, layered, masked_layer, pointers_only,
    property, with, with_byte, words,
};

use crate::{assert_accepted, assert_refused, assert_wrong_table};

/// Where the fields of the example start, in the order of the walk, up to its
/// tile pointer.
const FIELDS: [usize; 34] = [
    0, 9, 14, 18, 22, 26, 30, 34, 35, 39, 43, 47, 51, 55, 59, 63, 67, 69, 73, 77, 81, 85, 89, 93,
    97, 101, 105, 109, 113, 117, 121, 125, 129, 133,
];

/// The example cut at every length: the first field that is not whole.
#[test]
fn number_1_at_every_cut_of_the_example() {
    for length in 0..137 {
        let field = FIELDS.iter().rfind(|&&field| field <= length);
        assert_refused(&EXAMPLE[..length], 1, *field.unwrap());
    }
    // The tile pointer is 141, which must lie in the file.
    for length in 137..142 {
        assert_refused(&EXAMPLE[..length], 13, 133);
    }
    // The tile itself may be cut short.
    let row = [3, 1, 1, 1, 2, 67, 1, 69, 133, 1, 255, 1, 0, 0, 0, 0];
    assert_accepted(&EXAMPLE[..142], [1, 1, 1, 0, 1], &[row]);
}

/// The first 9 bytes, and then the tag's 5, are there before they are looked
/// at: bytes that are too few are a 1, whatever they are.
#[test]
fn number_1_for_a_short_start_or_tag() {
    assert_refused(&[], 1, 0);
    assert_refused(&[0; 8], 1, 0);
    assert_refused(b"GIMP XCF", 1, 0);
    for length in 9..14 {
        assert_refused(&b"gimp xcf vXYZ"[..length], 1, 9);
        assert_refused(&b"gimp xcf \0\0\0\0"[..length], 1, 9);
        // A wrong start is found before the tag is missed.
        assert_refused(&b"GIMP XCF v003"[..length], 2, 0);
    }
}

#[test]
fn number_1_where_a_pointer_leads_past_the_end() {
    let file = layered();
    // The layer's, the mask's, the channel's; hierarchies' and levels'.
    for place in [43, 90, 51, 86, 158, 223, 106, 174, 239] {
        for value in [270, 271, 273, 274, 1 << 31, u32::MAX] {
            assert_refused(&with(&file, &[(place, value)]), 1, value as usize);
        }
    }
}

#[test]
fn number_1_for_pointers_without_an_end() {
    let file = pointers_only(48, 32);
    assert_refused(&file[..30], 1, 30);
    assert_refused(&file[..226], 1, 226);
    assert_refused(&file[..357], 1, 354);
    assert_refused(&file[..361], 1, 358);
}

#[test]
fn number_1_for_a_string() {
    let file = layered();
    // From 75 on there are 198 bytes; the last one is not zero.
    assert_refused(&with(&file, &[(71, 199)]), 1, 75);
    assert_refused(&with(&file, &[(71, u32::MAX)]), 1, 75);
    assert_refused(&with(&file, &[(71, 198)]), 12, 71);
}

#[test]
fn number_1_for_payloads() {
    let list = words(&[18, 17]);
    // Behind the length there are 16 bytes: the list's end and two zeros.
    assert_refused(&empty_image(b"file\0", 1, &list), 1, 34);
    assert_refused(&empty_image(b"file\0", 1, &words(&[18, u32::MAX])), 1, 34);
    assert_refused(&grey_layer(&words(&[18, 17])), 1, 106);
    assert_refused(&channel(&words(&[u32::MAX, 13])), 1, 102);
}

#[test]
fn number_1_for_an_unended_hierarchy() {
    let mut file = with(&EXAMPLE, &[(101, 143)]);
    file.extend(words(&[1, 1, 1, 125, 7, 8]));
    assert_refused(&file, 1, 167);
    file.extend([0, 0, 0]);
    assert_refused(&file, 1, 167);
}

#[test]
fn number_2() {
    for place in 0..9 {
        assert_refused(&with_byte(&EXAMPLE, place, b'G'), 2, 0);
    }
    assert_refused(b"gimp xcf", 1, 0);
    assert_refused(b"gimp_xcf_", 2, 0);
    assert_refused(b"GIMP XCF ", 2, 0);
    assert_refused(&[0; 9], 2, 0);
}

#[test]
fn number_3() {
    for tag in [
        b"v000\0", b"v004\0", b"v010\0", b"V001\0", b"file ", b"v003 ", b"v01\0\0", b"fill\0",
    ] {
        assert_refused(&empty_image(tag, 1, &[]), 3, 9);
    }
    assert_refused(b"gimp xcf xxxx", 1, 9);
    assert_refused(b"gimp xcf xxxxx", 3, 9);
}

#[test]
fn number_4() {
    let file = layered();
    // Of the canvas, the layer, the mask and the channel.
    for place in [14, 18, 59, 63, 138, 142, 202, 206] {
        for side in [0, 16_385, 65_537, u32::MAX] {
            assert_refused(&with(&file, &[(place, side)]), 4, place);
        }
    }
}

#[test]
fn number_5() {
    for tag in [b"file\0", b"v001\0", b"v002\0", b"v003\0"] {
        for base in [3, 4, 255, 256, u32::MAX] {
            assert_refused(&empty_image(tag, base, &[]), 5, 22);
        }
    }
    let map = property(1, &[0]);
    assert_refused(&empty_image(b"file\0", 2, &map), 5, 22);
}

/// The only payload length of each type that has one. Not shared with the
/// reference or the generator of files: a mistake there must not be one here.
const LENGTHS: [(u32, u32); 21] = [
    (0, 0),
    (2, 0),
    (3, 0),
    (4, 0),
    (29, 0),
    (5, 4),
    (6, 4),
    (7, 4),
    (8, 4),
    (9, 4),
    (10, 4),
    (11, 4),
    (12, 4),
    (13, 4),
    (14, 4),
    (20, 4),
    (22, 4),
    (15, 8),
    (19, 8),
    (16, 3),
    (17, 1),
];

#[test]
fn number_6_in_every_list() {
    for (kind, right) in LENGTHS {
        for wrong in (0..=12).chain([256, u32::MAX]) {
            if wrong != right {
                let list = words(&[kind, wrong, 0, 0, 0]);
                assert_refused(&empty_image(b"v001\0", 0, &list), 6, 30);
                assert_refused(&grey_layer(&list), 6, 102);
                assert_refused(&masked_layer(&[], &list), 6, 130);
                assert_refused(&channel(&list), 6, 98);
            }
        }
    }
}

#[test]
fn number_6_for_a_colour_map() {
    let map = |length, count| {
        let list = [words(&[1, length, count]), vec![9; 12]].concat();
        empty_image(b"v001\0", 2, &list)
    };
    for (length, count) in [(0, 0), (3, 0), (5, 0), (7, 0), (9, 2), (11, 2), (4, 1)] {
        assert_refused(&map(length, count), 6, 30);
    }
}

#[test]
fn number_7_in_the_image() {
    for compression in [2, 3, 128, 255] {
        let list = byte_property(17, &[compression]);
        assert_refused(&empty_image(b"file\0", 0, &list), 7, 34);
    }
    for count in [257, 512, 1 << 31, u32::MAX] {
        let list = [words(&[1, 3 * 257 + 4, count]), vec![0; 3 * 257]].concat();
        assert_refused(&empty_image(b"v002\0", 2, &list), 7, 34);
        assert_refused(&empty_image(b"file\0", 0, &list), 7, 34);
    }
}

#[test]
fn number_7_without_a_colour_map() {
    assert_refused(&empty_image(b"v001\0", 2, &[]), 7, 26);
    let list = [byte_property(17, &[1]), property(18, &[1])].concat();
    assert_refused(&empty_image(b"v003\0", 2, &list), 7, 47);
}

#[test]
fn number_7_in_drawables() {
    for opacity in [256, 257, 1 << 24, u32::MAX] {
        let list = property(6, &[opacity]);
        assert_refused(&grey_layer(&list), 7, 106);
        assert_refused(&masked_layer(&[], &list), 7, 134);
        assert_refused(&channel(&list), 7, 102);
    }
    for flag in [2, 256, 1 << 24, u32::MAX] {
        let list = property(8, &[flag]);
        assert_refused(&grey_layer(&list), 7, 106);
        assert_refused(&masked_layer(&[], &list), 7, 134);
        assert_refused(&channel(&list), 7, 102);
        let list = property(11, &[flag]);
        assert_refused(&grey_layer(&list), 7, 106);
        assert_refused(&masked_layer(&list, &[]), 7, 106);
    }
}

/// What does not stand in the end is tested all the same.
#[test]
fn number_7_in_a_repeated_property() {
    let list = [property(6, &[300]), property(6, &[3])].concat();
    assert_refused(&grey_layer(&list), 7, 106);
    let list = [property(6, &[3]), property(6, &[300])].concat();
    assert_refused(&grey_layer(&list), 7, 118);
    let list = [byte_property(17, &[2]), byte_property(17, &[1])].concat();
    assert_refused(&empty_image(b"file\0", 0, &list), 7, 34);
    let list = [property(1, &[0]), property(1, &[257])].concat();
    assert_refused(&empty_image(b"v001\0", 2, &list), 7, 46);
}

#[test]
fn number_8() {
    assert_refused(&pointers_only(49, 0), 8, 226);
    assert_refused(&pointers_only(0, 33), 8, 166);
    assert_refused(&pointers_only(48, 33), 8, 358);
    // The last that may be there lead past the end.
    assert_refused(&pointers_only(48, 32), 1, 4_000_000_000);
    assert_refused(&pointers_only(0, 32), 1, 4_000_000_000);
}

#[test]
fn number_9() {
    let file = layered();
    // Hierarchy pointers of layer, mask and channel; first level pointers.
    for place in [86, 158, 223, 106, 174, 239] {
        assert_refused(&with(&file, &[(place, 0)]), 9, place);
    }
}

#[test]
fn number_10_for_a_type() {
    for kind in [2, 3, 4, 5, 6, 7, 256, u32::MAX] {
        assert_refused(&with(&layered(), &[(67, kind)]), 10, 67);
    }
    for kind in [0, 1, 4, 5, 6, 1 << 31 | 2] {
        assert_refused(&with(&grey_layer(&[]), &[(90, kind)]), 10, 90);
    }
}

#[test]
fn number_10_for_a_side() {
    let file = layered();
    // Of the mask and the channel.
    for (place, sides) in [
        (138, [64, 70]),
        (142, [2, 16_384]),
        (202, [65, 71]),
        (206, [1, 3]),
    ] {
        for side in sides {
            assert_refused(&with(&file, &[(place, side)]), 10, place);
        }
    }
}

#[test]
fn number_10_in_hierarchies_and_levels() {
    let file = layered();
    for start in [94, 118, 162, 182, 227, 247] {
        for place in [start, start + 4] {
            for side in [0, 1, 66, 16_385, u32::MAX] {
                assert_refused(&with(&file, &[(place, side)]), 10, place);
            }
        }
    }
    for (place, depths) in [(102, [0, 3, 5]), (170, [0, 2, 4]), (235, [0, 3, 257])] {
        for depth in depths {
            assert_refused(&with(&file, &[(place, depth)]), 10, place);
        }
    }
}

/// A layer's own sides are only found wrong where its hierarchy disagrees.
#[test]
fn number_10_after_another_side() {
    assert_refused(&with(&layered(), &[(59, 64)]), 10, 94);
    assert_refused(&with(&layered(), &[(63, 4)]), 10, 98);
    // Without alpha the depth is 3.
    assert_refused(&with(&layered(), &[(67, 0)]), 10, 102);
}

#[test]
fn number_11() {
    for length in [0, 1, 16, 128, 2_032, 2_047, 2_049, 2_064, 4_096] {
        assert_wrong_table(&EXAMPLE, length);
        assert_wrong_table(&[], length);
        assert_wrong_table(b"not a file of this kind", length);
    }
}

#[test]
fn number_12() {
    let file = layered();
    assert_refused(&with_byte(&file, 77, 1), 12, 71);
    assert_refused(&with_byte(&file, 214, 255), 12, 210);
    assert_refused(&with(&file, &[(71, 1)]), 12, 71);
    // The mask's string then runs into its list's end.
    assert_refused(&with(&with_byte(&file, 151, 1), &[(146, 2)]), 12, 146);
}

#[test]
fn number_13() {
    let file = layered();
    for (place, value) in [
        (126, 0),
        (126, 273),
        (126, u32::MAX),
        (130, 0),
        (130, 267),
        (130, 266),
        (130, 273),
        (134, 1),
        (134, 269),
        (194, 269),
        (198, u32::MAX),
        (259, 271),
        (263, 1 << 31),
    ] {
        assert_refused(&with(&file, &[(place, value)]), 13, place);
    }
    // The second pointer is the one that is not above the first.
    assert_refused(&with(&file, &[(126, 268)]), 13, 130);
}

#[test]
fn number_16() {
    for content in [0, 59, u32::MAX] {
        assert_refused(&grey_layer(&property(5, &[content])), 16, 98);
    }
    let list = [property(6, &[9]), property(5, &[0])].concat();
    assert_refused(&masked_layer(&list, &[]), 16, 110);
}
