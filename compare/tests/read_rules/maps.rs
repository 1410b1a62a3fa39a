//! The image's colour map, with each length word around the two that it may
//! have, whole and cut at every byte.

use crate::{assert_accepted, assert_refused};
use xcf_compare::files::laid::{byte_property, empty_image, words};

/// Where the list of properties starts, which begins with the map.
const MAP: usize = 26;

/// Versions, their tags, and base types that have them.
const IMAGES: [(u64, &[u8; 5], u32); 4] = [
    (0, b"file\0", 1),
    (1, b"v001\0", 0),
    (1, b"v001\0", 2),
    (3, b"v003\0", 2),
];

const COUNTS: [u32; 5] = [0, 1, 255, 256, 257];

/// The length words around the two that a map of so many colours may have.
fn lengths(count: u32) -> [u32; 6] {
    [count, 3 * count]
        .map(|n| [n + 3, n + 4, n + 5])
        .as_flattened()
        .try_into()
        .unwrap()
}

/// An encoded image whose list is a map of so many colours and a compression:
/// were the map's bytes counted wrong, the compression would not be found.
fn image(tag: &[u8; 5], base: u32, length: u32, count: u32) -> Vec<u8> {
    let colours = vec![0xFF; 3 * count as usize];
    let list = [words(&[1, length, count]), colours, byte_property(17, &[1])];
    empty_image(tag, base, &list.concat())
}

/// The first fault of a map in a file of so many bytes.
fn fault(length: u32, count: u32, size: usize) -> Option<(u64, usize)> {
    let colours = 3 * count as usize;
    let allowed = length == 3 * count + 4 || length == count + 4;
    match size - MAP {
        0..4 => Some((1, MAP)),
        4..8 => Some((1, MAP + 4)),
        _ if length < 4 => Some((6, MAP + 4)),
        8..12 => Some((1, MAP + 8)),
        _ if count > 256 => Some((7, MAP + 8)),
        _ if !allowed => Some((6, MAP + 4)),
        present if present < 12 + colours => Some((1, MAP + 12)),
        _ => None,
    }
}

#[test]
fn whole() {
    let mut accepted = 0;
    for (version, tag, base) in IMAGES {
        for count in COUNTS {
            for length in lengths(count) {
                let file = image(tag, base, length, count);
                match fault(length, count, file.len()) {
                    Some((number, place)) => assert_refused(&file, number, place),
                    None => {
                        assert_accepted(&file, [1, 1, base.into(), version, 1], &[]);
                        accepted += 1;
                    }
                }
            }
        }
    }
    // Both lengths for counts of 0, 1, 255 and 256.
    assert_eq!(accepted, IMAGES.len() * 4 * 2);
}

#[test]
fn cut_at_every_byte() {
    for count in COUNTS {
        for length in lengths(count) {
            let file = image(b"v001\0", 2, length, count);
            let end = MAP + 12 + 3 * count as usize;
            for size in MAP..end {
                let (number, place) = fault(length, count, size).expect("a fault");
                assert_refused(&file[..size], number, place);
            }
            // The property behind the map, in a file that ends where the map does.
            if fault(length, count, end).is_none() {
                assert_refused(&file[..end], 1, end);
            }
        }
    }
}

/// The bytes of a map whose length word is too small are the map's: they are
/// not read as properties, though they would be an end of the list.
#[test]
fn colours_are_not_properties() {
    for count in [3, 4, 100, 256_u32] {
        let colours = vec![0; 3 * count as usize];
        let compressed = byte_property(17, &[1]);
        let list = [words(&[1, count + 4, count]), colours, compressed].concat();
        assert_accepted(&empty_image(b"v001\0", 2, &list), [1, 1, 2, 1, 1], &[]);
    }
}
