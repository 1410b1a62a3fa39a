//! The library's writer held to Rust's own rule: of each row it takes the right
//! flag, and refuses the other.

use xcf_compare::implementation::LIBRARY;

use crate::full::{Full, ROWS};
use crate::{Count, EDGES, WELL_FORMED, edges, hold, random_names, sequences};

const SEED: u64 = 0x6E61_6D65_7300_0002;
const RANDOM_NAMES: usize = 20_000;

fn assert_written(full: &Full) {
    full.assert_written(&LIBRARY);
}

#[test]
fn every_name_of_one_byte_and_of_two() {
    for (length, names) in [(1, 256), (2, 65_536)] {
        let title = format!("of {length} bytes, written");
        let count = hold(&title, sequences(length), ROWS, assert_written);
        let well_formed = WELL_FORMED[length - 1];
        assert_eq!(count, Count { names, well_formed });
    }
}

#[test]
fn edges_of_four_bytes() {
    let count = hold("at edges, written", edges(), ROWS, assert_written);
    assert_eq!(count, EDGES);
}

#[test]
fn random_names_whole_and_broken() {
    let names = random_names(SEED, RANDOM_NAMES);
    let count = hold("at random, written", names, ROWS, assert_written);
    assert_eq!(count.names, RANDOM_NAMES);
    assert!((8_000..14_000).contains(&count.well_formed));
}
