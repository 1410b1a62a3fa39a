//! A good tile depends only on the structures and on the bytes that it consumed:
//! a file of the same length that agrees on these is read the same and gives the
//! same tile, though all other bytes may differ, also those behind in the tile's
//! own window.

use std::ops::Range;

use xcf_compare::answer::WINDOW_LIMIT;
use xcf_compare::implementation::{Implementation, LIBRARY, PLAIN, REFERENCE};
use xcf_compare::random::Random;
use xcf_compare::report;

use crate::changes::Changes;
use crate::places::{free, structures, written};
use crate::reading::{Alone, Decoded, Reading, Tile, read_file};

const SEED: u64 = 0x6973_6F6C_0000_0002;
const PAIRS: usize = 6_000;

/// A file, and what an implementation gives for it.
struct Shown {
    file: Vec<u8>,
    reading: Reading,
    tiles: Vec<Tile>,
    rows: Vec<Decoded>,
}

impl Shown {
    fn new(random: &mut Random, by: &Implementation, file: &[u8]) -> Self {
        let reading = Reading::new(random, by.read, file);
        let rows = reading.rows();
        let rows = rows.map(|row| Decoded::new(random, by.decode, file, &reading, row));
        Shown {
            file: file.to_vec(),
            rows: rows.collect(),
            tiles: reading.tiles(file),
            reading,
        }
    }

    /// The mark and the pixels that a tile has in its row.
    fn tile(&self, tile: &Tile) -> (u8, Vec<u8>) {
        let drawable = self.reading.drawable(&self.file, tile.row);
        self.rows[tile.row as usize].tile(&drawable, tile.tile)
    }

    /// Whether a tile is good in its row, with the pixels that it has alone.
    fn shows(&self, tile: &Tile, alone: &Alone) -> bool {
        let (mark, pixels) = self.tile(tile);
        mark == 0 && pixels == alone.pixels
    }

    fn alone(&self, random: &mut Random, by: &Implementation, tile: &Tile) -> Alone {
        Alone::new(random, by.decode_tile, &self.file, &self.reading, tile)
    }

    /// Chooses one, some or all of the good tiles.
    fn choose(&mut self, random: &mut Random) {
        let is_good = |tile: &&mut Tile| self.rows[tile.row as usize].marks[tile.tile] == 0;
        let mut good: Vec<&mut Tile> = self.tiles.iter_mut().filter(is_good).collect();
        if good.is_empty() {
            return;
        }
        let one = random.below(good.len());
        let times = random.pick(&[None, Some(1), Some(2), Some(10)]);
        for (i, tile) in good.iter_mut().enumerate() {
            tile.is_chosen = i == one || times.is_some_and(|times| random.one_in(times));
        }
    }

    /// The chosen tiles, which have to be the same alone as in their rows.
    fn chosen(&self, random: &mut Random) -> Vec<Chosen> {
        let chosen = |(index, tile): (usize, &Tile)| {
            let alone = self.alone(random, &LIBRARY, tile);
            assert!(alone.is_good() && self.shows(tile, &alone));
            let consumed = alone.consumed(tile);
            Chosen {
                index,
                alone,
                consumed,
            }
        };
        let tiles = self.tiles.iter().enumerate();
        tiles
            .filter(|(_, tile)| tile.is_chosen)
            .map(chosen)
            .collect()
    }

    /// Asserts that the other implementations read the file and decode its rows
    /// the same.
    fn assert_agreed(&self, random: &mut Random) {
        for by in [REFERENCE, PLAIN] {
            let other = Shown::new(random, &by, &self.file);
            self.reading.assert_same(&other.reading);
            assert!(self.rows == other.rows, "{}: rows differ", by.name);
        }
    }

    /// Asserts that a tile chosen in another file is the same here.
    fn assert_kept(&self, random: &mut Random, old: &Tile, chosen: &Chosen) {
        let tile = &self.tiles[chosen.index];
        let place = format!("tile {} of row {}", old.tile, old.row);
        let is_same = (tile.row, tile.tile, &tile.window) == (old.row, old.tile, &old.window);
        assert!(is_same, "{place} has another window");
        assert!(self.shows(tile, &chosen.alone), "{place} in its row");
        for by in [LIBRARY, REFERENCE, PLAIN] {
            let alone = self.alone(random, &by, tile);
            assert_eq!(alone.answer, chosen.alone.answer, "{}: {place}", by.name);
            assert!(alone == chosen.alone, "{}: pixels of {place}", by.name);
        }
    }
}

/// A good tile of a file, by its index among all, decoded alone, and the bytes
/// that it consumed.
struct Chosen {
    index: usize,
    alone: Alone,
    consumed: Range<usize>,
}

/// A file with chosen tiles, and another that agrees with it on the structures
/// and on what these tiles consumed.
struct Pair {
    first: Shown,
    chosen: Vec<Chosen>,
    second: Shown,
}

impl Pair {
    /// `None` if no tile is good, or no place is free to be written to.
    fn random(random: &mut Random) -> Option<Self> {
        let (file, ..) = read_file(random);
        let mut first = Shown::new(random, &LIBRARY, &file);
        first.choose(random);
        let chosen = first.chosen(random);
        let places = free(&structures(&file), chosen.iter().map(|tile| &tile.consumed));
        if chosen.is_empty() || places.is_empty() {
            return None;
        }
        let changed = written(random, &file, &places);
        let second = Shown::new(random, &LIBRARY, &changed);
        Some(Pair {
            first,
            chosen,
            second,
        })
    }

    /// Asserts that the second file is read the same and keeps the chosen tiles.
    fn assert_kept(&self, random: &mut Random) {
        let Pair { first, second, .. } = self;
        first.assert_agreed(random);
        second.assert_agreed(random);
        first.reading.assert_same(&second.reading);
        for chosen in &self.chosen {
            second.assert_kept(random, &first.tiles[chosen.index], chosen);
        }
    }
}

/// How often what was looked for came.
#[derive(Default)]
struct Seen {
    /// Pairs of plain and of encoded files.
    compressions: [usize; 2],
    /// Pairs of files with pointers of 8 bytes, and chosen tiles of these.
    long_pointers: usize,
    long_chosen: usize,
    chosen: usize,
    /// Chosen tiles with another byte in their window, behind what they
    /// consumed.
    changed_behind: usize,
    /// Of these, the ones with a structure byte there, too.
    over_structures: usize,
    /// And the ones whose window was cut.
    cut: usize,
    /// Chosen tiles of masks.
    masks: usize,
    /// How the tiles changed that were not chosen.
    changes: Changes,
    /// Pairs in which all good tiles were chosen.
    all_chosen: usize,
    /// Rows with a chosen tile that share their pointers with other rows.
    shared: usize,
}

impl Seen {
    fn pairs(&self) -> usize {
        self.compressions.iter().sum()
    }

    fn add(&mut self, pair: &Pair) {
        let Pair { first, second, .. } = pair;
        self.compressions[first.reading.compression() as usize] += 1;
        let is_long = usize::from(first.reading.pointer_size() == 8);
        self.long_pointers += is_long;
        self.long_chosen += is_long * pair.chosen.len();
        let is_structure = structures(&first.file);
        for chosen in &pair.chosen {
            let Tile { row, window, .. } = &first.tiles[chosen.index];
            let behind = chosen.consumed.end..window.end;
            let is_changed = first.file[behind.clone()] != second.file[behind.clone()];
            let is_over = is_changed && is_structure[behind].contains(&true);
            self.chosen += 1;
            self.changed_behind += usize::from(is_changed);
            self.over_structures += usize::from(is_over);
            self.cut += usize::from(is_changed && window.len() == WINDOW_LIMIT);
            self.masks += usize::from(first.reading.is_mask(*row));
        }
        let mut is_all = true;
        for tile in first.tiles.iter().filter(|tile| !tile.is_chosen) {
            let [old, new] = [first, second].map(|shown| shown.tile(tile));
            is_all &= old.0 != 0;
            self.changes.add(&old, &new);
        }
        self.all_chosen += usize::from(is_all);
        self.add_shared(&first.reading, &first.tiles);
    }

    fn add_shared(&mut self, reading: &Reading, tiles: &[Tile]) {
        let is_shared = |row: u32| {
            let mut others = reading.rows().filter(|&other| other != row);
            others.any(|other| reading.pointers(other) == reading.pointers(row))
        };
        let rows = tiles.chunk_by(|one, other| one.row == other.row);
        let with_chosen = rows.filter(|row| row.iter().any(|tile| tile.is_chosen));
        self.shared += with_chosen.filter(|row| is_shared(row[0].row)).count();
    }

    fn report(&self) {
        report(&format!(
            "consumed: {PAIRS} pairs of files, compressions {:?}, {} with pointers of 8 bytes, {} \
             with all good tiles chosen; {} chosen tiles, {} under pointers of 8 bytes, {} of \
             masks, {} with changes in their window behind what they consumed, of these {} with \
             structures there and {} with a window that was cut; of the others {}; {} rows with a \
             chosen tile share their pointers",
            self.compressions,
            self.long_pointers,
            self.all_chosen,
            self.chosen,
            self.long_chosen,
            self.masks,
            self.changed_behind,
            self.over_structures,
            self.cut,
            self.changes,
            self.shared
        ));
    }

    /// Asserts that all is there often enough to be worth running.
    fn assert_varied(&self) {
        assert!(self.compressions.iter().all(|&count| count >= 1_000));
        assert!(self.long_pointers >= 1_500 && self.long_chosen >= 8_000);
        assert!(self.all_chosen >= 1_000 && self.chosen >= 30_000);
        assert!(self.changed_behind >= 10_000 && self.over_structures >= 5_000);
        assert!(self.cut >= 500 && self.masks >= 5_000);
        assert!(self.changes.good_to_marked >= 3_000 && self.changes.marked_to_good >= 20);
        assert!(self.changes.other_pixels >= 3_000 && self.shared >= 8_000);
    }
}

#[test]
fn good_tiles_depend_on_structures_and_consumed_bytes() {
    let mut random = Random::new(SEED);
    let mut seen = Seen::default();
    while seen.pairs() < PAIRS {
        if let Some(pair) = Pair::random(&mut random) {
            pair.assert_kept(&mut random);
            seen.add(&pair);
        }
    }
    seen.report();
    seen.assert_varied();
}
