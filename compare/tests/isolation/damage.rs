//! Damage stays in its tile: bytes written only where no structure has a byte,
//! and of the tiles at most the chosen ones in their windows, change no other
//! tile, and nothing that reading gives. All through the library.

use std::ops::Range;

use xcf_compare::files::EXAMPLE;
use xcf_compare::files::laid::{layered, version_11};
use xcf_compare::implementation::{PLAIN, REFERENCE};
use xcf_compare::random::Random;
use xcf_compare::{library, report};

use crate::changes::Changes;
use crate::places::{free, marked, structures, written};
use crate::reading::{Decoded, Reading, Tile, read_file};

const SEED: u64 = 0x6973_6F6C_0000_0001;
const PAIRS: usize = 6_000;

/// A byte that is no structure's, the places that may be written to, and
/// whether some of these are in no window.
struct Choice {
    byte: usize,
    places: Vec<usize>,
    has_gap: bool,
}

/// Chooses every tile that has a byte, picked at random, in its window, and
/// perhaps others. `None` if only structure bytes were picked.
fn choose(random: &mut Random, file: &[u8], tiles: &mut [Tile]) -> Option<Choice> {
    let is_structure = structures(file);
    let mut pick = || {
        let Range { start, end } = tiles[random.below(tiles.len())].window;
        random.between(start, end - 1)
    };
    let byte = (0..20).map(|_| pick()).find(|&byte| !is_structure[byte])?;
    let rate = random.pick(&[None, None, Some(10), Some(2)]);
    for tile in tiles.iter_mut() {
        let is_extra = rate.is_some_and(|times| random.one_in(times));
        tile.is_chosen = is_extra || tile.window.contains(&byte);
    }
    let windows = |chosen: bool| {
        let tiles = tiles.iter().filter(move |tile| tile.is_chosen == chosen);
        tiles.map(|tile| &tile.window)
    };
    let is_chosen = marked(file.len(), windows(true));
    let places = free(&is_structure, windows(false));
    let has_gap = places.iter().any(|&place| !is_chosen[place]);
    Some(Choice {
        byte,
        places,
        has_gap,
    })
}

/// How often what was looked for came.
#[derive(Default)]
struct Seen {
    chosen: usize,
    others: usize,
    /// Others that are good.
    good_others: usize,
    /// How the chosen tiles changed.
    changes: Changes,
    /// Pairs of plain and of encoded files.
    compressions: [usize; 2],
    /// Pairs of files with pointers of 8 bytes.
    long_pointers: usize,
    /// Pairs that may differ where no tile has a byte.
    gaps: usize,
    /// Pairs with a chosen tile and another one in one row.
    split: usize,
    /// Pairs with a tile that was chosen in two rows that share their pointers.
    shared: usize,
    /// Pairs with overlapping windows of rows that do not share pointers.
    overlapping: usize,
}

impl Seen {
    /// Counts a pair of files by its choice of tiles. In each row one window
    /// at most has the byte that the choice started from.
    fn add_choice(&mut self, reading: &Reading, tiles: &[Tile], choice: &Choice) {
        self.compressions[reading.compression() as usize] += 1;
        self.long_pointers += usize::from(reading.pointer_size() == 8);
        self.gaps += usize::from(choice.has_gap);
        let is_split = |row: &[Tile]| {
            let chosen = row.iter().filter(|tile| tile.is_chosen).count();
            0 < chosen && chosen < row.len()
        };
        let mut rows = tiles.chunk_by(|one, other| one.row == other.row);
        self.split += usize::from(rows.any(is_split));
        let has_byte = |tile: &&Tile| tile.window.contains(&choice.byte);
        let with_byte = tiles.iter().filter(has_byte);
        let mut pointers: Vec<u32> = with_byte.map(|tile| reading.pointers(tile.row)).collect();
        let rows = pointers.len();
        pointers.sort();
        pointers.dedup();
        self.shared += usize::from(pointers.len() < rows);
        self.overlapping += usize::from(pointers.len() > 1);
    }

    fn report(&self) {
        report(&format!(
            "isolation: {PAIRS} pairs of files, {} chosen tiles, {} others of which {} are good; \
             of the chosen {}; pairs: compressions {:?}, {} with pointers of 8 bytes, {} with \
             bytes of no tile, {} with a row in part chosen, {} with shared pointers, {} with \
             overlapping windows",
            self.chosen,
            self.others,
            self.good_others,
            self.changes,
            self.compressions,
            self.long_pointers,
            self.gaps,
            self.split,
            self.shared,
            self.overlapping
        ));
    }

    /// Asserts that all is there often enough to be worth running.
    fn assert_varied(&self) {
        assert!(self.chosen >= 50_000 && self.others >= 100_000);
        assert!(self.good_others >= 60_000 && self.changes.other_pixels >= 10_000);
        assert!(self.changes.good_to_marked >= 3_000 && self.changes.marked_to_good >= 3_000);
        assert!(self.compressions.iter().all(|&count| count >= 1_000));
        assert!(self.long_pointers >= 1_500);
        assert!(self.gaps >= 1_000 && self.split >= 3_000);
        assert!(self.shared >= 2_000 && self.overlapping >= 2_500);
    }
}

/// Asserts that all rows of the old and the new file agree but for the chosen
/// tiles, and that all are as the new file has them.
fn compare(
    random: &mut Random,
    files: [&[u8]; 2],
    reading: &Reading,
    tiles: &[Tile],
    seen: &mut Seen,
) {
    for tiles in tiles.chunk_by(|one, other| one.row == other.row) {
        let row = tiles[0].row;
        let drawable = reading.drawable(files[0], row);
        let [old, new] = files.map(|file| {
            let decoded = Decoded::new(random, library::decode, file, reading, row);
            let again = Decoded::new(random, library::decode, file, reading, row);
            assert!(decoded == again, "row {row} shows what the buffers held");
            decoded
        });
        for other in [REFERENCE, PLAIN] {
            let expected = Decoded::new(random, other.decode, files[1], reading, row);
            assert!(new == expected, "{}: row {row}", other.name);
        }
        for &Tile {
            tile, is_chosen, ..
        } in tiles
        {
            let [old, new] = [&old, &new].map(|row| row.tile(&drawable, tile));
            if is_chosen {
                seen.chosen += 1;
                seen.changes.add(&old, &new);
            } else {
                assert!(new == old, "tile {tile} of row {row}");
                seen.others += 1;
                seen.good_others += usize::from(old.0 == 0);
            }
        }
    }
}

/// In files laid by hand all is a structure's but the tiles, which lie last:
/// no more is kept from being written to.
#[test]
fn structures_end_before_the_tiles() {
    for (file, tiles) in [
        (EXAMPLE.to_vec(), 141),
        (layered(), 267),
        (version_11::example(), 177),
        (version_11::layered(), 367),
    ] {
        let expected: Vec<bool> = (0..file.len()).map(|place| place < tiles).collect();
        assert_eq!(structures(&file), expected);
    }
}

#[test]
fn damage_stays_in_its_tiles() {
    let mut random = Random::new(SEED);
    let mut seen = Seen::default();
    let mut pairs = 0;
    while pairs < PAIRS {
        let (file, reading, mut tiles) = read_file(&mut random);
        let Some(choice) = choose(&mut random, &file, &mut tiles) else {
            continue;
        };
        let damaged = written(&mut random, &file, &choice.places);
        reading.assert_same(&Reading::new(&mut random, library::read, &damaged));
        // Bytes that make tiles good are as likely.
        let mut files = [&file[..], &damaged];
        if random.one_in(2) {
            files.reverse();
        }
        compare(&mut random, files, &reading, &tiles, &mut seen);
        seen.add_choice(&reading, &tiles, &choice);
        pairs += 1;
    }
    seen.report();
    seen.assert_varied();
}
