//! Places in a file: those of its structures, those that may be written to, and
//! random bytes at some of these.

use std::ops::Range;

use xcf_compare::random::Random;
use xcf_compare::read::structure_bytes;

/// Marks the bytes of the ranges.
pub fn marked<'a>(length: usize, ranges: impl IntoIterator<Item = &'a Range<usize>>) -> Vec<bool> {
    let mut marked = vec![false; length];
    for range in ranges {
        marked[range.clone()].fill(true);
    }
    marked
}

/// Which bytes of an accepted file are a structure's.
pub fn structures(file: &[u8]) -> Vec<bool> {
    let structures = structure_bytes(file).expect("a file that was read");
    marked(file.len(), &structures)
}

/// The places in none of the ranges that are no structure's.
pub fn free<'a>(
    is_structure: &[bool],
    ranges: impl IntoIterator<Item = &'a Range<usize>>,
) -> Vec<usize> {
    let is_kept = marked(is_structure.len(), ranges);
    let is_free = |&place: &usize| !is_kept[place] && !is_structure[place];
    (0..is_structure.len()).filter(is_free).collect()
}

/// The file with random bytes at one, some or all of the places, at least one
/// of them another than before.
pub fn written(random: &mut Random, file: &[u8], places: &[usize]) -> Vec<u8> {
    loop {
        let mut new = file.to_vec();
        write(random, &mut new, places);
        if new != file {
            return new;
        }
    }
}

fn write(random: &mut Random, file: &mut [u8], places: &[usize]) {
    match random.below(3) {
        0 => file[random.pick(places)] = random.byte(),
        1 => {
            for _ in 0..random.between(1, 12) {
                file[random.pick(places)] = random.byte();
            }
        }
        _ => {
            for &place in places {
                file[place] = random.byte();
            }
        }
    }
}
