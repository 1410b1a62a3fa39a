//! Of two faults the one that is looked for first is the answer: each case
//! stands beside that of the later fault alone.

use crate::Call;

#[test]
fn table_before_sides() {
    let mut call = Call::new([0, 0], 1, &[]);
    call.assert_refused(4, 14);
    call.table.push(0);
    call.assert_refused(11, 0);
}

#[test]
fn width_before_height() {
    Call::new([1, 0], 1, &[]).assert_refused(4, 18);
    Call::new([16_385, 0], 1, &[]).assert_refused(4, 14);
}

#[test]
fn sides_before_base() {
    Call::new([1, 1], 2, &[]).assert_refused(5, 22);
    Call::new([1, 16_385], 2, &[]).assert_refused(4, 18);
}

#[test]
fn base_before_rows() {
    let call = Call::example().with(0, 10, 256);
    call.assert_refused(17, 0);
    Call { base: 2, ..call }.assert_refused(5, 22);
}

#[test]
fn rows_before_pixels() {
    let call = Call::rows().with_pixels(&[]);
    call.assert_refused(11, 0);
    call.with(4, 10, 256).assert_refused(17, 4);
    call.with(127, 1, 1).assert_refused(17, 127);
}

#[test]
fn pixels_before_output() {
    let call = Call::rows().lent(0);
    call.assert_refused(18, 0);
    call.with_pixels(&[]).assert_refused(11, 0);
}

/// Of several bad rows the lowest is the answer, whatever is wrong with it.
#[test]
fn lowest_row() {
    let call = Call::rows().with(127, 0, 9);
    call.assert_bad(127);
    let call = call.with(5, 3, 1);
    call.assert_bad(5);
    let call = call.with(4, 14, 1);
    call.assert_bad(4);
    let call = call.flagged(3, 32);
    call.assert_bad(3);
    let call = call.with(2, 15, 0);
    call.assert_bad(2);
    let call = call.with(1, 1, 1);
    call.assert_bad(1);
    let call = call.with(0, 14, 22);
    call.assert_bad(0);
}

/// A mask that is missing makes its layer's flag bad, not what takes its
/// place; one that is bad does not.
#[test]
fn layer_before_its_mask() {
    let call = Call::rows();
    call.with(1, 0, 4).assert_bad(0);
    call.with(1, 0, 4).with(0, 11, 1).assert_bad(1);
    call.with(1, 10, 256).assert_bad(1);
    call.with(0, 1, 3).assert_bad(1);
}
