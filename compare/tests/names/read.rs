//! The library's reader held to Rust's own rule.

use xcf_compare::implementation::LIBRARY;

use crate::full::{FORMS, Full, ROWS};
use crate::{Count, EDGES, WELL_FORMED, edges, hold, random_names, sequences};

const SEED: u64 = 0x6E61_6D65_7300_0001;
const RANDOM_NAMES: usize = 1_000_000;

/// So many names go to each kind of row.
const EACH_KIND: usize = 32;

fn assert_read(full: &Full) {
    for form in &FORMS {
        full.assert_read(form, &LIBRARY);
    }
}

#[test]
fn every_name_of_one_byte_and_of_two() {
    for (length, names) in [(1, 256), (2, 65_536)] {
        let title = format!("of {length} bytes, read");
        let count = hold(&title, sequences(length), EACH_KIND, assert_read);
        let well_formed = WELL_FORMED[length - 1];
        assert_eq!(count, Count { names, well_formed });
    }
}

#[test]
fn every_name_of_three_bytes() {
    let count = hold("of 3 bytes, read", sequences(3), ROWS, assert_read);
    let (names, well_formed) = (1 << 24, WELL_FORMED[2]);
    assert_eq!(count, Count { names, well_formed });
}

#[test]
fn edges_of_four_bytes() {
    let count = hold("at edges, read", edges(), EACH_KIND, assert_read);
    assert_eq!(count, EDGES);
}

/// Every first and second byte before two that only stand behind others.
#[test]
fn starts_of_four_bytes() {
    let names = sequences(2).map(|start| [&start[..], &[0x80, 0x80]].concat());
    let count = hold(
        "of 4 bytes by their start, read",
        names,
        EACH_KIND,
        assert_read,
    );
    // Of E1 to EF behind a byte of ASCII; of F0, F1 to F3, F4.
    let well_formed = 128 * 15 + 48 + 3 * 64 + 16;
    let names = 65_536;
    assert_eq!(count, Count { names, well_formed });
}

#[test]
fn random_names_whole_and_broken() {
    let names = random_names(SEED, RANDOM_NAMES);
    let count = hold("at random, read", names, ROWS, assert_read);
    assert_eq!(count.names, RANDOM_NAMES);
    assert!((400_000..700_000).contains(&count.well_formed));
}
