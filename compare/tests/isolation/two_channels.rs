//! Two channels in a file, with the answers written out, for both widths of
//! pointers. The window of the first one's tile runs over the second one.

use std::ops::Range;

use xcf_compare::answer::{GOOD, ReadAnswer, Row, TOO_SOON, TileAnswer};
use xcf_compare::files::block::{number_at, set_number};
use xcf_compare::files::laid::{lay, pointers, version_11, with_byte};
use xcf_compare::files::version::pointer_size;
use xcf_compare::files::{EXAMPLE, table_of};
use xcf_compare::implementation::ALL;
use xcf_compare::library;
use xcf_compare::random::Random;

use crate::places::{free, structures};
use crate::reading::{Alone, Decoded, Reading};

const SEED: u64 = 0x6973_6F6C_0000_0005;

/// A file, its version and rows, and the places of the tiles' opcodes.
struct TwoChannels {
    file: Vec<u8>,
    version: u64,
    rows: [Row; 2],
    opcodes: [usize; 2],
}

/// The example of a version with its channel, which starts at `channel` behind
/// its pointer and a zero, twice: at the places. The pointers in the channel are
/// so many bytes from its start.
fn twice(
    version: u32,
    example: &[u8],
    channel: usize,
    inner: [usize; 3],
    [first, second]: [usize; 2],
) -> Vec<u8> {
    let size = pointer_size(version);
    let moved = |place: usize| {
        let mut bytes = example[channel..].to_vec();
        for at in inner {
            let distance = number_at(&bytes, at, size) - channel as u64;
            set_number(&mut bytes, at, size, place as u64 + distance);
        }
        bytes
    };
    let start = channel - 2 * size;
    let channels = [first as u64, second as u64, 0];
    lay(&[
        (0, &example[..start]),
        (start, &pointers(size, channels)),
        (first, &moved(first)),
        (second, &moved(second)),
    ])
}

/// The row of a channel with its name, list and tile pointer at the places.
fn row([name, list, pointer]: [u32; 3], own: u32) -> Row {
    [
        3, 1, 1, 1, 2, name, 1, list, pointer, 1, 255, 1, 0, 0, 0, own,
    ]
}

fn short() -> TwoChannels {
    TwoChannels {
        file: twice(0, &EXAMPLE, 55, [46, 62, 78], [59, 147]),
        version: 0,
        rows: [row([71, 73, 137], 0), row([159, 161, 225], 1)],
        opcodes: [145, 233],
    }
}

fn long() -> TwoChannels {
    let example = version_11::example();
    TwoChannels {
        file: twice(11, &example, 71, [46, 66, 90], [79, 187]),
        version: 11,
        rows: [row([91, 93, 169], 0), row([199, 201, 277], 1)],
        opcodes: [185, 293],
    }
}

impl TwoChannels {
    /// Asserts, with all, what reading the file with another byte gives and, for
    /// each tile, the pixel and the answer.
    fn assert_shown(&self, place: usize, byte: u8, tiles: [(u8, TileAnswer); 2]) {
        let file = with_byte(&self.file, place, byte);
        let expected = Reading {
            answer: ReadAnswer::accepted([1, 1, 1, self.version, 1], 2),
            table: table_of(&self.rows),
        };
        let mut random = Random::new(SEED);
        for by in ALL {
            let reading = Reading::new(&mut random, by.read, &file);
            expected.assert_same(&reading);
            for (tile, (pixel, answer)) in reading.tiles(&file).iter().zip(tiles) {
                let row = Decoded::new(&mut random, by.decode, &file, &reading, tile.row);
                assert_eq!(
                    (row.marks, row.pixels),
                    (vec![answer.mark as u8], vec![pixel])
                );
                let alone = Alone::new(&mut random, by.decode_tile, &file, &reading, tile);
                assert_eq!((alone.answer, alone.pixels), (answer, vec![pixel]));
            }
        }
    }
}

#[test]
fn damage_in_the_second_tile_leaves_the_first() {
    for two in [short(), long()] {
        let [_, opcode] = two.opcodes;
        let good = (255, TileAnswer::decoded(GOOD, 2, 1));
        two.assert_shown(opcode, 255, [good, good]);
        let marked = (0, TileAnswer::decoded(TOO_SOON, 0, 0));
        two.assert_shown(opcode, 128, [good, marked]);
    }
}

/// All is a structure's but the tiles; the opcode lies in both windows.
#[test]
fn second_opcode_lies_in_both_windows() {
    for two in [short(), long()] {
        let (file, [first, second]) = (&two.file, two.opcodes);
        let tiles = free(&structures(file), &[]);
        assert_eq!(tiles, [first, first + 1, second, second + 1]);
        let reading = Reading::new(&mut Random::new(SEED), library::read, file);
        let windows = reading.tiles(file).into_iter().map(|tile| tile.window);
        let windows: Vec<Range<usize>> = windows.collect();
        assert_eq!(windows, [first..file.len(), second..file.len()]);
        assert!(windows.iter().all(|window| window.contains(&second)));
    }
}
