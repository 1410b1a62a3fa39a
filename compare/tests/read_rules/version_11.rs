//! Version 11: what accepted files give, and the precision behind the base type.

use xcf_compare::answer::{ReadAnswer, Row, TABLE_LENGTH};
use xcf_compare::files::laid::version_11::{
    channel, empty_image, example, grey_layer, image_start, layered, masked_layer,
};
use xcf_compare::files::laid::{self, property, with, with_byte, words};
use xcf_compare::files::{EXAMPLE, version};
use xcf_compare::implementation::ALL;

use crate::{assert_accepted, assert_refused};

/// The five numbers of the grey images.
pub const GREY: [u64; 5] = [1, 1, 1, 11, 0];

/// The row of the example.
pub const CHANNEL: Row = [3, 1, 1, 1, 2, 83, 1, 85, 161, 1, 255, 1, 0, 0, 0, 0];

/// The numbers and the rows of `layered`.
pub const LAYERED_IMAGE: [u64; 5] = [70, 2, 0, 11, 1];

pub const LAYERED: [Row; 3] = [
    [1, 65, 3, 4, 1, 95, 2, 98, 166, 2, 255, 3, 0, 0, 0, 0],
    [2, 65, 3, 1, 2, 202, 0, 202, 254, 2, 255, 0, 0, 0, 0, 0],
    [3, 70, 2, 1, 2, 290, 0, 291, 343, 2, 255, 0, 0, 0, 0, 2],
];

#[test]
fn the_example() {
    assert_accepted(&example(), [1, 1, 1, 11, 1], &[CHANNEL]);
    assert_accepted(&layered(), LAYERED_IMAGE, &LAYERED);
}

#[test]
fn empty_lists() {
    let layer = [1, 1, 1, 1, 2, 130, 0, 130, 98, 1, 255, 1, 0, 0, 0, 0];
    assert_accepted(&grey_layer(&[]), GREY, &[layer]);
    let row = [3, 1, 1, 1, 2, 126, 0, 126, 98, 1, 255, 0, 0, 0, 0, 0];
    assert_accepted(&channel(&[]), GREY, &[row]);
    let layer = [1, 1, 1, 1, 2, 130, 0, 130, 98, 1, 255, 3, 0, 0, 0, 0];
    let mask = [2, 1, 1, 1, 2, 166, 0, 166, 98, 1, 255, 0, 0, 0, 0, 0];
    assert_accepted(&masked_layer(&[], &[]), GREY, &[layer, mask]);
}

/// The reader says how many bytes a pointer has; where it refuses, it says
/// nothing.
#[test]
fn pointer_size() {
    let long = example();
    let cut = &long[..100];
    for (file, number, size) in [
        (&EXAMPLE[..], 0, 4),
        (&laid::empty_image(b"v003\0", 0, &[]), 0, 4),
        (&long, 0, 8),
        (&empty_image(0, &[]), 0, 8),
        (cut, 1, 0),
        (&EXAMPLE[..100], 1, 0),
        (&with(&long, &[(26, 100)]), 25, 0),
    ] {
        for by in ALL {
            let answer = (by.read)(file, &mut [7; TABLE_LENGTH]);
            assert_eq!((answer.number, answer.pointer_size), (number, size));
        }
    }
    for by in ALL {
        let answer = (by.read)(&long, &mut [7; TABLE_LENGTH - 1]);
        assert_eq!(answer, ReadAnswer::refused(11, 0));
    }
}

/// Where the fields of the example start, in the order of the walk, up to its
/// tile pointer.
const FIELDS: [usize; 35] = [
    0, 9, 14, 18, 22, 26, 30, 34, 38, 39, 43, 47, 55, 63, 71, 75, 79, 83, 85, 89, 93, 97, 101, 105,
    109, 113, 117, 125, 129, 133, 137, 145, 153, 157, 161,
];

/// The example cut at every length, also within each pointer and each closing
/// zero: the first field that is not whole.
#[test]
fn number_1_at_every_cut_of_the_example() {
    let file = example();
    for length in 0..169 {
        let field = FIELDS.iter().rfind(|&&field| field <= length);
        assert_refused(&file[..length], 1, *field.unwrap());
    }
    // The tile pointer is 177, which must lie in the file.
    for length in 169..178 {
        assert_refused(&file[..length], 13, 161);
    }
    // The tile itself may be cut short.
    assert_accepted(&file[..178], [1, 1, 1, 11, 1], &[CHANNEL]);
}

#[test]
fn number_1_for_the_precision() {
    let file = image_start(1);
    for length in 26..30 {
        assert_refused(&file[..length], 1, 26);
    }
    assert_refused(&file, 1, 30);
}

#[test]
fn number_3() {
    let file = example();
    for number in (4..=10).chain(12..=20).chain([99, 100, 110, 111, 112]) {
        let mut file = file.clone();
        file[9..14].copy_from_slice(&version::tag(number));
        assert_refused(&file, 3, 9);
    }
    for tag in [
        b"v011 ",
        b"v11\0\0",
        b"v11\x000",
        b"V011\0",
        b"v01\x31\x01",
        b"v0011",
    ] {
        let mut file = file.clone();
        file[9..14].copy_from_slice(tag);
        assert_refused(&file, 3, 9);
    }
}

#[test]
fn number_5() {
    for base in [3, 4, 150, 255, 256, u32::MAX] {
        assert_refused(&empty_image(base, &[]), 5, 22);
    }
}

#[test]
fn every_base() {
    for base in [0, 1] {
        assert_accepted(&empty_image(base, &[]), [1, 1, base.into(), 11, 0], &[]);
    }
    let map = property(1, &[0]);
    assert_accepted(&empty_image(2, &map), [1, 1, 2, 11, 0], &[]);
    assert_refused(&empty_image(2, &[]), 7, 30);
}

#[test]
fn number_25() {
    for precision in [
        0,
        1,
        100,
        149,
        151,
        200,
        250,
        750,
        150 << 8,
        150 << 16,
        150 << 24,
        256 + 150,
        1 << 31 | 150,
        u32::MAX,
    ] {
        assert_refused(&with(&example(), &[(26, precision)]), 25, 26);
        // The precision's word alone decides, there or not what follows it.
        assert_refused(&with(&image_start(0), &[(26, precision)]), 25, 26);
    }
}

/// Older versions have no precision: the word at 26 is a property's type.
#[test]
fn no_precision_before() {
    for (number, tag) in [
        (0, b"file\0"),
        (1, b"v001\0"),
        (2, b"v002\0"),
        (3, b"v003\0"),
    ] {
        let image = [1, 1, 1, number, 0];
        assert_accepted(&laid::empty_image(tag, 1, &[]), image, &[]);
        let file = laid::empty_image(tag, 1, &words(&[150, 0]));
        assert_accepted(&file, image, &[]);
        // Its length is then the first word of the list's end.
        assert_refused(&laid::empty_image(tag, 1, &words(&[150])), 1, 46);
    }
}

#[test]
fn fields_of_the_image_in_turn() {
    let file = empty_image(2, &words(&[17, 2]));
    let faults = [(14, 0), (18, 0), (22, 3), (26, 100)];
    let mut bad = with(&with_byte(&file, 12, b'2'), &faults);
    assert_refused(&with_byte(&bad, 0, 0), 2, 0);
    assert_refused(&bad, 3, 9);
    bad = with_byte(&bad, 12, b'1');
    for (place, right, number) in [(14, 1, 4), (18, 1, 4), (22, 2, 5), (26, 150, 25)] {
        assert_refused(&bad, number, place);
        bad = with(&bad, &[(place, right)]);
    }
    assert_refused(&bad, 6, 34);
}

/// The precision comes after the base type and before the list, missing or
/// wrong.
#[test]
fn precision_in_its_turn() {
    let start = image_start(3);
    assert_refused(&start[..26], 5, 22);
    assert_refused(&with(&start, &[(26, 100)]), 5, 22);
    assert_refused(&image_start(1)[..26], 1, 26);
    let list = [&image_start(1)[..], &words(&[17, 2, 0])].concat();
    assert_refused(&with(&list, &[(26, 100)]), 25, 26);
    assert_refused(&list, 6, 34);
    let list = [&image_start(1)[..], &words(&[17, 1]), &[2]].concat();
    assert_refused(&with(&list, &[(26, 100)]), 25, 26);
    assert_refused(&list, 7, 38);
}
