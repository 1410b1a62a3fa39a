//! Measures the library's reader against a plain Rust one.

use std::hint::black_box;
use std::time::Instant;

use xcf_compare::answer::{BAD_TILE_POINTER, Read, TABLE_LENGTH};
use xcf_compare::implementation::{LIBRARY, PLAIN};
use xcf_compare::random::Random;
use xcf_compare::read as reference;

use crate::{ROUNDS, SEED, Which, alternate, files};

/// The files of one case, and what a reader gives for each.
struct Files {
    content: &'static str,
    files: Vec<Vec<u8>>,
    number: u64,
    rows: usize,
    /// How many times a round reads them.
    repeats: usize,
}

impl Files {
    /// Tile pointers of 4 bytes in version 0, of 8 in version 11.
    fn large(content: &'static str, random: &mut Random, version: u32) -> Self {
        Files {
            content,
            files: vec![files::large(random, version)],
            number: 0,
            rows: files::LARGE_ROWS,
            repeats: 8,
        }
    }

    fn many(random: &mut Random) -> Self {
        Files {
            content: "many",
            files: (0..32).map(|_| files::many(random)).collect(),
            number: 0,
            rows: 128,
            repeats: 32,
        }
    }

    fn refused() -> Self {
        Files {
            content: "refused",
            files: vec![files::refused()],
            number: BAD_TILE_POINTER,
            rows: 0,
            repeats: 65_536,
        }
    }

    /// Stops unless the reader gives the reference's answer and table.
    fn check(&self, read: Read) {
        for file in &self.files {
            let mut table = vec![0xA5A5_A5A5; TABLE_LENGTH];
            let mut expected_table = table.clone();
            let answer = read(file, &mut table);
            assert_eq!(answer, reference::read(file, &mut expected_table));
            assert!(table == expected_table, "tables differ");
            assert_eq!(
                (answer.number, answer.rows),
                (self.number, self.rows as u64)
            );
        }
    }

    /// Reads all files into the same table; gives the time for one in
    /// nanoseconds.
    fn time(&self, read: Read, table: &mut [u32]) -> f64 {
        let start = Instant::now();
        for _ in 0..self.repeats {
            for file in &self.files {
                black_box(read(black_box(file), black_box(&mut *table)));
            }
        }
        let calls = self.repeats * self.files.len();
        start.elapsed().as_nanos() as f64 / calls as f64
    }

    /// Measures both readers, prints the times and gives them.
    fn compare(&self) -> [f64; 2] {
        self.check(LIBRARY.read);
        self.check(PLAIN.read);
        let mut table = vec![0; TABLE_LENGTH];
        let (library, plain) = alternate(|which| match which {
            Which::Library => self.time(LIBRARY.read, &mut table),
            Which::Plain => self.time(PLAIN.read, &mut table),
        });
        let (content, ratio) = (self.content, library / plain);
        println!("read           {content:<7}{library:>12.0}{plain:>12.0}{ratio:>9.2}");
        [library, plain]
    }
}

pub fn compare_readers() {
    let mut random = Random::new(SEED);
    println!("Files read, medians of {ROUNDS} rounds, ns for a file");
    println!();
    println!("               content     library       plain    ratio");
    let short = Files::large("large", &mut random, 0).compare();
    let long = Files::large("v011", &mut random, 11).compare();
    Files::many(&mut random).compare();
    Files::refused().compare();
    println!();
    println!(
        "Large files of {} tile pointers, ns for each",
        files::LARGE_POINTERS
    );
    for (size, times) in [(4, short), (8, long)] {
        let [library, plain] = times.map(|time| time / files::LARGE_POINTERS as f64);
        println!("of {size} bytes: library {library:.2}, plain {plain:.2}");
    }
}
