//! Measures what a long name costs the library's reader, against a plain Rust
//! reader and against a loop that only looks for a byte above ASCII.

use std::hint::black_box;
use std::time::Instant;

use xcf_compare::answer::{Read, TABLE_LENGTH};
use xcf_compare::implementation::{LIBRARY, PLAIN};

use crate::{ROUNDS, files};

/// How many bytes a name has at most; it repeats its text as often as that
/// allows.
const LENGTH: usize = 1 << 20;

/// Texts that a name repeats: one, two and three bytes for each character, and
/// words as names have them.
const TEXTS: [(&str, &str); 4] = [
    ("ASCII", "pen 1 flow "),
    ("words", "Höhenschreiber für Öl, "),
    ("2 bytes", "ДНЕВНИК"),
    ("3 bytes", "水位記録"),
];

/// Reads a file; gives the time in nanoseconds.
fn time_read(read: Read, file: &[u8], table: &mut [u32]) -> f64 {
    let start = Instant::now();
    black_box(read(black_box(file), black_box(table)));
    start.elapsed().as_nanos() as f64
}

/// Looks at each byte up to one above ASCII; gives the time in nanoseconds.
fn time_loop(name: &[u8]) -> f64 {
    let start = Instant::now();
    let mut i = 0;
    let name = black_box(name);
    while i < name.len() && name[i] < 0x80 {
        i += 1;
    }
    black_box(i);
    start.elapsed().as_nanos() as f64
}

fn compare(content: &str, text: &str) {
    let name = text.repeat(LENGTH / text.len()).into_bytes();
    let file = files::named(name.clone());
    let mut table = vec![0; TABLE_LENGTH];
    let mut best = [f64::INFINITY; 3];
    for _ in 0..ROUNDS {
        let times = [
            time_read(LIBRARY.read, &file, &mut table),
            time_read(PLAIN.read, &file, &mut table),
            time_loop(&name),
        ];
        best = std::array::from_fn(|which| best[which].min(times[which]));
    }
    let [library, plain, bytes] = best.map(|time| time / name.len() as f64);
    // A name that is not ASCII ends the loop at once.
    let bytes = match name.is_ascii() {
        true => format!("{bytes:>12.2}"),
        false => format!("{:>12}", "-"),
    };
    println!("name           {content:<7}{library:>12.2}{plain:>12.2}{bytes}");
}

pub fn compare_names() {
    println!("Names of about {LENGTH} bytes, best of {ROUNDS} rounds, ns for a byte");
    println!();
    println!("               content     library       plain        loop");
    for (content, text) in TEXTS {
        compare(content, text);
    }
}
