//! Every number that the writer refuses with, but for unusable rows.

use xcf_compare::files::EXAMPLE;

use xcf_compare::implementation::ALL;

use crate::{Call, FILLING};

#[test]
fn number_11_for_the_table() {
    for length in [0, 1, 16, 2_032, 2_047, 2_049, 2_064, 4_096] {
        let mut call = Call::example();
        call.table.resize(length, 0);
        call.assert_refused(11, 0);
    }
}

#[test]
fn number_4() {
    for side in [0, 16_385, 65_536 + 1, 1 << 31, u32::MAX] {
        Call::new([side, 1], 1, &[]).assert_refused(4, 14);
        Call::new([1, side], 1, &[]).assert_refused(4, 18);
        Call::new([side, side], 1, &[]).assert_refused(4, 14);
    }
    Call::new([16_384, 16_384], 1, &[]).file();
}

/// Indexed images are not written.
#[test]
fn number_5() {
    for base in [2, 3, 256, 65_536 + 1, 1 << 31, u32::MAX] {
        Call::new([1, 1], base, &[]).assert_refused(5, 22);
    }
}

#[test]
fn number_11_for_the_pixels() {
    let call = Call::rows();
    let right = call.pixels.len();
    assert_eq!(right, 24 + 6 + 195 + 6 + 6);
    for length in [0, 24, 30, right - 1, right + 1, 2 * right] {
        call.with_pixels(&vec![0; length]).assert_refused(11, 0);
    }
    // No rows take no pixels.
    let call = Call::grey(&[]);
    call.with_pixels(&[0]).assert_refused(11, 0);
}

#[test]
fn number_18() {
    let call = Call::example();
    for length in [0, 1, 55, 141, 142] {
        call.lent(length).assert_refused(18, 0);
    }
    Call::grey(&[]).lent(50).assert_refused(18, 0);
    Call::grey(&[]).lent(51).file();
}

/// An output of the file's length is enough; bytes of a longer one stay.
#[test]
fn room_enough() {
    for (length, beyond) in [(143, 0), (144, 1), (143 + 50, 50)] {
        for by in ALL {
            let (answer, output) = Call::example().lent(length).write(by.write);
            assert_eq!((answer.number, answer.place, answer.length), (0, 0, 143));
            let expected = [&EXAMPLE[..], &vec![FILLING; beyond]].concat();
            assert_eq!(output, expected);
        }
    }
}
