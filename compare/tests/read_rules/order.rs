//! Of two faults the one that the walk meets first is answered: one case for each
//! order that the rules fix, mostly beside the case of the later fault alone.

use xcf_compare::answer::{FILE_LIMIT, ReadAnswer, TABLE_LENGTH};
use xcf_compare::files::EXAMPLE;
use xcf_compare::files::laid::{
    END, channel, empty_image, grey_layer, image_start, layered, masked_layer, pointers_only,
    property, with, with_byte, words,
};
use xcf_compare::implementation::ALL;

use crate::{assert_refused, assert_wrong_table};

#[test]
fn wrong_table_before_a_long_file() {
    // Memory that is zero from the start is not touched before it is used.
    let file = vec![0; FILE_LIMIT + 1];
    assert_wrong_table(&file, TABLE_LENGTH + 1);
    for by in ALL {
        let mut table = [7; TABLE_LENGTH];
        assert_eq!((by.read)(&file, &mut table), ReadAnswer::refused(15, 0));
        assert!(table == [7; TABLE_LENGTH]);
    }
}

#[test]
fn side_out_of_range_before_disagreement() {
    for place in [138, 142, 202, 206] {
        assert_refused(&with(&layered(), &[(place, 0)]), 4, place);
        assert_refused(&with(&layered(), &[(place, 16_385)]), 4, place);
        assert_refused(&with(&layered(), &[(place, 16_384)]), 10, place);
    }
}

#[test]
fn only_disagreement_in_hierarchies_and_levels() {
    for place in [94, 98, 118, 122, 162, 182, 227, 247] {
        assert_refused(&with(&layered(), &[(place, 0)]), 10, place);
        assert_refused(&with(&layered(), &[(place, 16_385)]), 10, place);
    }
}

/// A list at the end of a file: the length, then the presence, then the
/// content.
#[test]
fn length_then_presence_then_content_in_the_image() {
    let image = |list: &[u8]| [&image_start(b"file\0", 1), list].concat();
    assert_refused(&image(&words(&[17, 2])), 6, 30);
    assert_refused(&image(&words(&[17, 1])), 1, 34);
    assert_refused(&image(&[&words(&[17, 2])[..], &[9, 9]].concat()), 6, 30);
    assert_refused(&image(&[&words(&[17, 1])[..], &[9]].concat()), 7, 34);
    assert_refused(&image(&[&words(&[17, 1])[..], &[1]].concat()), 1, 35);
}

#[test]
fn length_then_presence_then_content_in_a_layer() {
    let layer = |list: &[u8]| {
        let mut file = grey_layer(list);
        file.truncate(98 + list.len());
        file
    };
    for kind in [6, 8, 11] {
        assert_refused(&layer(&words(&[kind, 5])), 6, 102);
        assert_refused(&layer(&words(&[kind, 4])), 1, 106);
        let short = [&words(&[kind, 4])[..], &[1, 0, 0]].concat();
        assert_refused(&layer(&short), 1, 106);
        assert_refused(&layer(&words(&[kind, 8, 999, 0])), 6, 102);
        assert_refused(&layer(&words(&[kind, 4, 999])), 7, 106);
        assert_refused(&layer(&words(&[kind, 4, 1])), 1, 110);
    }
}

#[test]
fn floating_selection_after_length_and_presence() {
    let layer = |list: &[u8]| {
        let mut file = grey_layer(list);
        file.truncate(98 + list.len());
        file
    };
    assert_refused(&layer(&words(&[5, 3])), 6, 102);
    assert_refused(&layer(&words(&[5, 8, 0, 0])), 6, 102);
    assert_refused(&layer(&words(&[5, 4])), 1, 106);
    assert_refused(&layer(&[&words(&[5, 4])[..], &[0; 3]].concat()), 1, 106);
    assert_refused(&layer(&words(&[5, 4, 0])), 16, 98);
}

/// The whole order for a colour map at the end of a file.
#[test]
fn colour_map() {
    for (tag, base) in [(b"v001\0", 2), (b"file\0", 1)] {
        let image = |list: &[u8]| [&image_start(tag, base), list].concat();
        // A length below 4 before the count's word, missing or not.
        assert_refused(&image(&words(&[1, 3])), 6, 30);
        assert_refused(&image(&words(&[1, 0, 999])), 6, 30);
        // The count's word before anything else of the length.
        assert_refused(&image(&words(&[1, 5])), 1, 34);
        assert_refused(&image(&words(&[1, u32::MAX])), 1, 34);
        assert_refused(&image(&[&words(&[1, 4])[..], &[9; 3]].concat()), 1, 34);
        // The count before the length.
        assert_refused(&image(&words(&[1, 5, 257])), 7, 34);
        assert_refused(&image(&words(&[1, 775, 257])), 7, 34);
        assert_refused(&image(&words(&[1, 261, 257])), 7, 34);
        assert_refused(&image(&words(&[1, 4, 1 << 31])), 7, 34);
        // The length before the colours.
        assert_refused(&image(&words(&[1, 771, 256])), 6, 30);
        assert_refused(&image(&words(&[1, 5, 0])), 6, 30);
        // The colours, at the first of them.
        assert_refused(&image(&words(&[1, 772, 256])), 1, 38);
        assert_refused(&image(&words(&[1, 260, 256])), 1, 38);
        assert_refused(&image(&words(&[1, 10, 2, 0x0102_0304])), 1, 38);
        assert_refused(&image(&words(&[1, 6, 2, 0x0102_0304])), 1, 38);
        // What follows the map.
        assert_refused(&image(&words(&[1, 4, 0])), 1, 38);
    }
}

#[test]
fn length_of_the_end_before_the_missing_colour_map() {
    let image = |list: &[u8]| [&image_start(b"v002\0", 2), list].concat();
    assert_refused(&image(&words(&[0, 1])), 6, 30);
    assert_refused(&image(&words(&[0])), 1, 30);
    assert_refused(&image(&words(&[0, 0])), 7, 26);
}

#[test]
fn missing_colour_map_before_the_pointers() {
    let mut file = pointers_only(49, 0);
    file[9..14].copy_from_slice(b"v001\0");
    assert_refused(&with(&file, &[(22, 2)]), 7, 26);
}

#[test]
fn fields_of_the_image_in_turn() {
    let file = empty_image(b"v001\0", 2, &words(&[17, 2]));
    let bad = with(&with_byte(&file, 9, b'x'), &[(14, 0), (18, 0), (22, 3)]);
    assert_refused(&with_byte(&bad, 0, 0), 2, 0);
    assert_refused(&bad, 3, 9);
    let bad = with_byte(&bad, 9, b'v');
    assert_refused(&bad, 4, 14);
    let bad = with(&bad, &[(14, 1)]);
    assert_refused(&bad, 4, 18);
    let bad = with(&bad, &[(18, 1)]);
    assert_refused(&bad, 5, 22);
    assert_refused(&with(&bad, &[(22, 2)]), 6, 30);
}

#[test]
fn fields_of_a_layer_in_turn() {
    let file = grey_layer(&words(&[6, 5]));
    let mut bad = with(&file, &[(82, 0), (86, 0), (90, 6), (94, 1)]);
    assert_refused(&bad, 4, 82);
    bad = with(&bad, &[(82, 1)]);
    assert_refused(&bad, 4, 86);
    bad = with(&bad, &[(86, 1)]);
    assert_refused(&bad, 10, 90);
    // The string's only byte is then a zero, and its list starts at 99.
    bad = with(&bad, &[(90, 2)]);
    assert_refused(&with_byte(&bad, 98, 1), 12, 94);
    assert_refused(&with(&bad, &[(94, 0)]), 6, 102);
}

#[test]
fn fields_of_a_channel_in_turn() {
    let file = channel(&words(&[6, 5]));
    let mut bad = with(&with_byte(&file, 94, 1), &[(82, 2), (86, 0), (90, 1)]);
    assert_refused(&bad, 10, 82);
    bad = with(&bad, &[(82, 1)]);
    assert_refused(&bad, 4, 86);
    bad = with(&bad, &[(86, 1)]);
    assert_refused(&bad, 12, 90);
    assert_refused(&with(&with_byte(&bad, 94, 0), &[(90, 0)]), 6, 98);
}

#[test]
fn string_before_the_list() {
    let file = with(&layered(), &[(82, 1)]);
    assert_refused(&with_byte(&file, 77, 1), 12, 71);
    assert_refused(&file, 6, 82);
    // A name that is not UTF-8 is no fault.
    let file = with_byte(&file, 76, 0xE4);
    assert_refused(&with_byte(&file, 77, 1), 12, 71);
    assert_refused(&with_byte(&file, 77, 0xA4), 12, 71);
    assert_refused(&file, 6, 82);
}

#[test]
fn list_before_the_hierarchy_pointer() {
    let file = grey_layer(&property(6, &[256]));
    assert_refused(&with(&file, &[(118, 0)]), 7, 106);
    let file = grey_layer(&property(6, &[255]));
    assert_refused(&with(&file, &[(118, 0)]), 9, 118);
}

#[test]
fn zero_hierarchy_pointer_before_the_missing_mask_pointer() {
    let file = grey_layer(&[]);
    assert_refused(&with(&file, &[(106, 0)])[..110], 9, 106);
    assert_refused(&file[..110], 1, 110);
    assert_refused(&file[..113], 1, 110);
}

/// The structure's last field is read before its hierarchy.
#[test]
fn missing_mask_pointer_before_the_hierarchy() {
    let file = with(&grey_layer(&[]), &[(46, 2)]);
    assert_refused(&file[..110], 1, 110);
    assert_refused(&file, 10, 46);
}

#[test]
fn hierarchy_before_its_level() {
    // The words behind the first level pointer, which have no end.
    let file = with(&EXAMPLE, &[(101, 143), (125, 2)]);
    let file = [file, words(&[1, 1, 1, 125, 7])].concat();
    assert_refused(&file, 1, 163);
    assert_refused(&[file, words(&[0])].concat(), 10, 125);
}

#[test]
fn fields_of_a_hierarchy_in_turn() {
    let mut bad = with(&layered(), &[(94, 1), (98, 1), (102, 1), (106, 0)]);
    for (place, right) in [(94, 65), (98, 3), (102, 4)] {
        assert_refused(&bad, 10, place);
        bad = with(&bad, &[(place, right)]);
    }
    assert_refused(&bad, 9, 106);
}

#[test]
fn fields_of_a_level_in_turn() {
    let faults = [(118, 1), (122, 1), (126, 0), (130, 0), (134, 1)];
    let mut bad = with(&layered(), &faults);
    for (place, right, number) in [
        (118, 65, 10),
        (122, 3, 10),
        (126, 267, 13),
        (130, 268, 13),
        (134, 0, 13),
    ] {
        assert_refused(&bad, number, place);
        bad = with(&bad, &[(place, right)]);
    }
}

/// A bad tile pointer is found before a later word is missing.
#[test]
fn tile_pointer_before_the_missing_closing_word() {
    let file = with(&EXAMPLE, &[(133, 0)]);
    assert_refused(&file[..137], 13, 133);
    let file = with(&EXAMPLE, &[(133, 1)]);
    assert_refused(&file[..137], 1, 137);
}

/// Layers are first read when all of the image's pointers are.
#[test]
fn too_many_before_the_first_layer() {
    let file = pointers_only(49, 0);
    assert_refused(&file, 8, 226);
    assert_refused(&with(&file, &[(226, 0)]), 1, 4_000_000_000);
    assert_refused(&pointers_only(1, 33), 8, 170);
}

#[test]
fn missing_pointers_before_the_first_layer() {
    let file = pointers_only(1, 1);
    assert_refused(&file[..38], 1, 38);
    assert_refused(&file[..42], 1, 42);
    assert_refused(&file[..46], 1, 46);
    assert_refused(&file, 1, 4_000_000_000);
}

#[test]
fn layers_hierarchy_before_its_mask() {
    // Each fault of the layer's hierarchy and level, and the mask's width.
    for (place, value, number) in [(94, 1, 10), (106, 0, 9), (118, 1, 10), (134, 1, 13)] {
        let file = with(&layered(), &[(place, value), (138, 0)]);
        assert_refused(&file, number, place);
    }
    assert_refused(&with(&layered(), &[(94, 1), (90, u32::MAX)]), 10, 94);
    assert_refused(&with(&layered(), &[(138, 0)]), 4, 138);
}

#[test]
fn layer_and_mask_before_a_channel() {
    let bad_channel = with(&layered(), &[(202, 0)]);
    assert_refused(&bad_channel, 4, 202);
    assert_refused(&with(&bad_channel, &[(59, 0)]), 4, 59);
    assert_refused(&with(&bad_channel, &[(134, 1)]), 13, 134);
    assert_refused(&with(&bad_channel, &[(142, 0)]), 4, 142);
    assert_refused(&with(&bad_channel, &[(198, 1)]), 13, 198);
    // Also where the channel's pointer is the fault.
    let lost_channel = with(&layered(), &[(51, 5_000)]);
    assert_refused(&with(&lost_channel, &[(198, 1)]), 13, 198);
    assert_refused(&lost_channel, 1, 5_000);
}

/// A grey image with two layer pointers; the structures start at 50, where
/// they have the places of `masked_layer` and 4 more.
fn two_layers(second: u32) -> Vec<u8> {
    let one = masked_layer(&[], &[]);
    let mut file = one[..38].to_vec();
    file.extend(words(&[second, 0, 0]));
    file.extend_from_slice(&one[46..]);
    let moved = [(34, 86), (62, 70), (110, 50), (114, 118), (138, 50)];
    with(&file, &moved)
}

#[test]
fn mask_before_the_next_layer() {
    assert_refused(&with(&two_layers(6_000), &[(118, 0)]), 4, 118);
    assert_refused(&two_layers(6_000), 1, 6_000);
}

#[test]
fn list_before_the_images_pointers() {
    let image = |list: &[u8]| [&image_start(b"file\0", 1), list].concat();
    assert_refused(&image(&words(&[0, 1])), 6, 30);
    assert_refused(&image(&words(&END)), 1, 34);
}
