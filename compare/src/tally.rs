//! How many cases of each kind came to each number.

use std::collections::BTreeMap;
use std::fmt::Debug;

use crate::report;

pub struct Tally<Kind> {
    counts: BTreeMap<(Kind, u64), usize>,
}

impl<Kind> Default for Tally<Kind> {
    fn default() -> Self {
        Tally {
            counts: BTreeMap::new(),
        }
    }
}

impl<Kind: Copy + Debug + Ord> Tally<Kind> {
    pub fn add(&mut self, kind: Kind, number: u64) {
        *self.counts.entry((kind, number)).or_default() += 1;
    }

    /// Cases of all kinds with the number.
    pub fn all(&self, number: u64) -> usize {
        let matching = self.counts.iter().filter(|(key, _)| key.1 == number);
        matching.map(|(_, count)| count).sum()
    }

    /// Cases of one kind with the number.
    pub fn of(&self, kind: Kind, number: u64) -> usize {
        self.counts.get(&(kind, number)).copied().unwrap_or(0)
    }

    /// Prints, for each kind, how many cases came to each number.
    pub fn report(&self, title: &str) {
        let mut lines: BTreeMap<Kind, String> = BTreeMap::new();
        for ((kind, number), count) in &self.counts {
            let line = lines.entry(*kind).or_default();
            line.push_str(&match number {
                0 => format!(" {count} accepted"),
                number => format!(" {count} refused {number}"),
            });
        }
        for (kind, line) in lines {
            report(&format!("{title}, {kind:?}:{line}"));
        }
    }
}
