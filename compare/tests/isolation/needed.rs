//! What a good tile is held to depend on is needed: it shows if the last byte that
//! the tile consumed is another one, and often if a byte of a structure is.

use xcf_compare::files::laid::with_byte;
use xcf_compare::random::Random;
use xcf_compare::{library, report};

use crate::places::structures;
use crate::reading::{Alone, Reading, Tile, read_file};

const SEED: u64 = 0x6973_6F6C_0000_0003;
const PAIRS: usize = 4_000;

/// What differs first between two files.
#[derive(PartialEq, Eq)]
enum Difference {
    Answer,
    Table,
    Tile,
}

/// A file with a good tile, which is also decoded alone.
struct Good {
    file: Vec<u8>,
    reading: Reading,
    tile: Tile,
    /// The tile's index among all.
    index: usize,
    alone: Alone,
}

impl Good {
    fn random(random: &mut Random) -> Self {
        loop {
            let (file, reading, tiles) = read_file(random);
            let index = random.below(tiles.len());
            let tile = tiles[index].clone();
            let alone = Alone::new(random, library::decode_tile, &file, &reading, &tile);
            if alone.is_good() {
                return Good {
                    file,
                    reading,
                    tile,
                    index,
                    alone,
                };
            }
        }
    }

    /// What another byte at the place changes, if anything.
    fn difference(&self, random: &mut Random, place: usize) -> Option<Difference> {
        let byte = self.file[place] ^ random.between(1, 255) as u8;
        let file = with_byte(&self.file, place, byte);
        let reading = Reading::new(random, library::read, &file);
        if reading.answer != self.reading.answer {
            return Some(Difference::Answer);
        }
        if reading.table != self.reading.table {
            return Some(Difference::Table);
        }
        let tile = &reading.tiles(&file)[self.index];
        let alone = Alone::new(random, library::decode_tile, &file, &reading, tile);
        (alone != self.alone).then_some(Difference::Tile)
    }
}

/// What differs in each pair of files, one of which has another byte at a place
/// that is picked, if one can be.
fn differences(
    seed: u64,
    pick: impl Fn(&mut Random, &Good) -> Option<usize>,
) -> Vec<Option<Difference>> {
    let mut random = Random::new(seed);
    let mut differences = Vec::new();
    while differences.len() < PAIRS {
        let good = Good::random(&mut random);
        if let Some(place) = pick(&mut random, &good) {
            differences.push(good.difference(&mut random, place));
        }
    }
    differences
}

/// Counts and reports the differences of each kind: answers, tables, tiles.
fn counts(what: &str, differences: &[Option<Difference>]) -> [usize; 3] {
    let counts = [Difference::Answer, Difference::Table, Difference::Tile].map(|kind| {
        let kind = Some(kind);
        differences.iter().filter(|&other| *other == kind).count()
    });
    let [answers, tables, tiles] = counts;
    report(&format!(
        "needed: {PAIRS} pairs with another {what}, {answers} of them with another answer, \
         {tables} with another table, {tiles} with another tile"
    ));
    counts
}

/// The last byte that a good tile consumed is a pixel's. Where it is no
/// structure's, too, only the tile differs.
#[test]
fn last_byte_consumed() {
    let differences = differences(SEED, |_, good| {
        let last = good.alone.consumed(&good.tile).end - 1;
        (!structures(&good.file)[last]).then_some(last)
    });
    assert_eq!(counts("last byte consumed", &differences), [0, 0, PAIRS]);
}

/// Not every byte of a structure shows: the colours of a map do not.
#[test]
fn byte_of_a_structure() {
    let differences = differences(SEED + 1, |random, good| {
        let is_structure = structures(&good.file);
        let consumed = good.alone.consumed(&good.tile);
        let is_other = |place: &usize| is_structure[*place] && !consumed.contains(place);
        let places: Vec<usize> = (0..good.file.len()).filter(is_other).collect();
        Some(random.pick(&places))
    });
    let [answers, tables, tiles] = counts("structure byte", &differences);
    assert!(answers >= 2_000 && tables >= 50 && tiles >= 5);
}
