//! Every number that the decoder refuses with, and their order.

use xcf_compare::answer::{DecodeAnswer, FILE_LIMIT, TABLE_LENGTH};
use xcf_compare::files::block::set_number;

use crate::{Call, pair};

#[test]
fn number_11_for_the_table() {
    for length in [0, 1, 16, 2_032, 2_047, 2_049, 2_064, 4_096] {
        let mut call = Call::example();
        call.table.resize(length, 0);
        call.assert_refused(11, 0);
    }
}

/// Counting has no such buffers, and succeeds.
#[test]
fn number_11_for_pixels_or_marks() {
    let call = pair();
    let pixels = [0, 64, 66, 130].map(|pixels| (pixels, 2));
    let marks = [0, 1, 3, 65].map(|marks| (65, marks));
    for (pixels, marks) in [pixels, marks].concat() {
        let call = call.lent(pixels, marks);
        call.assert_not_decoded(11, 0);
        call.assert_counts(DecodeAnswer::decoded(0));
    }
}

#[test]
fn number_14_for_the_row() {
    let call = Call::example();
    // Row 1 is not used. Rows from 128 on are not there, whatever their place
    // in the table is in 32 bits.
    for row in [1, 127, 128, 129, 256, 65_536, 1 << 28, 1 << 31, u32::MAX] {
        Call {
            row,
            ..call.clone()
        }
        .assert_refused(14, 0);
    }
}

#[test]
fn number_14_for_each_number_of_the_row() {
    let call = Call::example();
    for (field, values) in [
        (0, [0, 4, 5, 256 + 3, 65_536 + 3, u32::MAX]),
        (1, [0, 65, 16_385, 65_536 + 1, 1 << 31, u32::MAX]),
        (2, [0, 65, 16_385, 65_536 + 1, 1 << 31, u32::MAX]),
        (3, [0, 5, 256 + 1, 65_536 + 1, 1 << 31, u32::MAX]),
        (
            9,
            [0, 2, 65_536 + 1, (1 << 30) - 1, (1 << 30) + 1, u32::MAX],
        ),
    ] {
        for value in values {
            call.with_field(field, value).assert_refused(14, 0);
        }
    }
}

/// The pointer and the closing zero take 8 of the file's 143 bytes.
#[test]
fn number_14_for_the_place_of_the_pointers() {
    let call = Call::example();
    for place in [
        136,
        139,
        143,
        144,
        1 << 31,
        u32::MAX - 7,
        u32::MAX - 6,
        u32::MAX,
    ] {
        call.with_field(8, place).assert_refused(14, 0);
    }
    // Here they are the file's last bytes, and the pointer is bad.
    call.with_field(8, 135).assert_refused(13, 135);
}

/// Sides whose tiles or pixels would be none in 32 bits.
#[test]
fn number_14_for_numbers_that_wrap() {
    for [width, height, count] in [
        [1 << 22, 1 << 22, 0],
        [u32::MAX, 1, 0],
        [1, u32::MAX - 62, 0],
        [65_536, 65_536, 1 << 20],
    ] {
        let call = Call::example()
            .with_field(1, width)
            .with_field(2, height)
            .with_field(9, count);
        for (pixels, marks) in [(0, 0), (1, 1)] {
            call.lent(pixels, marks).assert_refused(14, 0);
        }
    }
}

#[test]
fn number_14_for_the_compression() {
    let call = Call::example();
    for compression in [2, 3, 255, 256, 257, 65_537, 1 << 31, u32::MAX] {
        let call = Call {
            compression,
            ..call.clone()
        };
        call.assert_refused(14, 0);
    }
}

#[test]
fn number_13() {
    let call = Call::example();
    for pointer in [0, 143, 144, 1 << 31, u32::MAX.into()] {
        call.with_pointer(133, pointer).assert_refused(13, 133);
    }
    for closing in [1, 142, 1 << 24, u32::MAX.into()] {
        call.with_pointer(137, closing).assert_refused(13, 137);
    }
    let call = pair();
    for pointer in [0, 1, 12, 13, 78, 79, u32::MAX.into()] {
        call.with_pointer(5, pointer).assert_refused(13, 5);
    }
    // The first is good, and the second no longer above it.
    call.with_pointer(1, 77).assert_refused(13, 5);
    call.with_pointer(9, 77).assert_refused(13, 9);
}

#[test]
fn number_13_at_the_lowest_bad_pointer() {
    let bad = pair()
        .with_pointer(1, 0)
        .with_pointer(5, 78)
        .with_pointer(9, 1);
    bad.assert_refused(13, 1);
    let bad = bad.with_pointer(1, 13);
    bad.assert_refused(13, 5);
    let bad = bad.with_pointer(5, 77);
    bad.assert_refused(13, 9);
    bad.with_pointer(9, 0)
        .assert_decodes(&[0, 0], &[&[1; 64][..], &[2]].concat());
}

#[test]
fn row_before_the_lent_pixels_and_marks() {
    let call = Call::example().with_field(3, 0);
    call.lent(0, 0).assert_refused(14, 0);
}

#[test]
fn lent_pixels_and_marks_before_the_pointers() {
    let call = Call::example().with_pointer(133, 0);
    call.lent(2, 1).assert_not_decoded(11, 0);
    call.lent(1, 0).assert_not_decoded(11, 0);
    call.assert_refused(13, 133);
}

/// A file is too long from one byte above the limit on: found after the
/// table's length and before the row and the size of pointers.
fn assert_limited(example: &Call) {
    // Memory that is zero from the start is not touched before it is used.
    let mut file = vec![0; FILE_LIMIT + 1];
    file[..example.file.len()].copy_from_slice(&example.file);
    let mut call = Call {
        file,
        ..example.clone()
    };
    call.assert_refused(15, 0);
    call.row = 128;
    call.pointer_size = 0;
    call.assert_refused(15, 0);
    call.table.push(0);
    call.assert_refused(11, 0);
    call.table.truncate(TABLE_LENGTH);
    call.assert_refused(15, 0);
    call.row = 0;
    call.file.truncate(FILE_LIMIT);
    call.assert_refused(14, 0);
    call.pointer_size = example.pointer_size;
    call.assert_decodes(&[0], &[0xFF]);
    // The only tile may be the last byte.
    let (place, size) = (call.table[8] as usize, call.pointer_size as usize);
    set_number(&mut call.file, place, size, FILE_LIMIT as u64 - 1);
    call.assert_decodes(&[20], &[0]);
    call.file[FILE_LIMIT - 1] = 7;
    call.compression = 0;
    call.assert_decodes(&[0], &[7]);
}

#[test]
fn number_15() {
    assert_limited(&Call::example());
    assert_limited(&Call::long_example());
}
