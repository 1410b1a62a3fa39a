//! Floating selections: properties of type 5, whose length depends on the version.

use xcf_compare::answer::TABLE_LENGTH;
use xcf_compare::files::laid::version_11::{channel, empty_image, grey_layer, masked_layer};
use xcf_compare::files::laid::{self, byte_property, property, with};
use xcf_compare::files::version;
use xcf_compare::implementation::ALL;

use crate::assert_refused;

/// Files of a version with a property of type 5, of so many bytes, in the list
/// of the image, of a layer, of a mask and of a channel, and its places there.
fn floating_files(number: u32, length: u32) -> [(Vec<u8>, usize); 4] {
    let list = byte_property(5, &vec![0; length as usize]);
    if number == 11 {
        return [
            (empty_image(1, &list), 30),
            (grey_layer(&list), 130),
            (masked_layer(&[], &list), 166),
            (channel(&list), 126),
        ];
    }
    let tag = version::tag(number);
    let files = [
        (laid::empty_image(&tag, 1, &list), 26),
        (laid::grey_layer(&list), 98),
        (laid::masked_layer(&[], &list), 126),
        (laid::channel(&list), 94),
    ];
    files.map(|(mut file, place)| {
        file[9..14].copy_from_slice(&tag);
        (file, place)
    })
}

/// The one of these files whose property is a layer's.
const IN_A_LAYER: usize = 1;

fn assert_is_accepted(file: &[u8]) {
    for by in ALL {
        let answer = (by.read)(file, &mut [7; TABLE_LENGTH]);
        assert_eq!((answer.number, answer.place), (0, 0));
    }
}

/// Type 5 has 4 bytes, in version 11 also 8; in a layer's list it is a floating
/// selection, and in others nothing.
#[test]
fn floating_selections() {
    for (number, right) in [
        (0, &[4][..]),
        (1, &[4]),
        (2, &[4]),
        (3, &[4]),
        (11, &[4, 8]),
    ] {
        for length in (0..=20).chain([260, 264]) {
            for (list, (file, place)) in floating_files(number, length).iter().enumerate() {
                match right.contains(&length) {
                    false => assert_refused(file, 6, place + 4),
                    true if list == IN_A_LAYER => assert_refused(file, 16, *place),
                    true => assert_is_accepted(file),
                }
            }
        }
    }
}

/// The length comes before the payload, and this before the selection.
#[test]
fn floating_selection_in_its_turn() {
    for length in [4, 8] {
        for (list, (file, place)) in floating_files(11, length).into_iter().enumerate() {
            let payload = place + 8;
            let end = payload + length as usize;
            for cut in payload..end {
                assert_refused(&file[..cut], 1, payload);
                assert_refused(&with(&file[..cut], &[(place + 4, 5)]), 6, place + 4);
            }
            match list {
                IN_A_LAYER => assert_refused(&file[..end], 16, place),
                _ => assert_refused(&file[..end], 1, end),
            }
        }
    }
}

/// No other type gets longer: those of 4 bytes do not have 8.
#[test]
fn other_lengths_are_as_before() {
    for kind in [6, 7, 8, 9, 10, 11, 12, 13, 14, 20, 22] {
        let list = property(kind, &[0, 0]);
        assert_refused(&empty_image(1, &list), 6, 34);
        assert_refused(&grey_layer(&list), 6, 134);
        assert_refused(&masked_layer(&[], &list), 6, 170);
        assert_refused(&channel(&list), 6, 130);
    }
    for kind in [15, 19] {
        let list = property(kind, &[0]);
        assert_refused(&empty_image(1, &list), 6, 34);
        assert_refused(&grey_layer(&list), 6, 134);
    }
}
