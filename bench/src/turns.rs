//! Drawables measured by turns: the library, plain Rust, a copy of the pixels.

use std::time::Instant;

use xcf_compare::random::Random;

use crate::{ROUNDS, SEED};

/// The sides of the drawables, all of whose tiles are whole ones.
pub const SIDE: usize = 4_096;

/// Pixels that are all white, and noise.
pub fn contents(depth: usize) -> [(&'static str, Vec<u8>); 2] {
    let length = SIDE * SIDE * depth;
    [
        ("white", vec![0xFF; length]),
        ("noise", Random::new(SEED).bytes(length)),
    ]
}

/// What is measured.
#[derive(Clone, Copy)]
pub enum Work {
    Library,
    Plain,
    Copy,
}

/// Prints what the lines of `compare` mean; `what` is done with a drawable.
pub fn print_heading(what: &str) {
    println!("Drawables of {SIDE} by {SIDE} {what}, best of {ROUNDS} rounds, us for a drawable");
    println!();
    println!("         depth content     library       plain    ratio        copy    ratio");
}

/// Does all three by turns, and prints the best time of each in microseconds.
pub fn compare(what: &str, depth: usize, content: &str, mut work: impl FnMut(Work)) {
    let mut best = [f64::INFINITY; 3];
    for _ in 0..ROUNDS {
        for (best, turn) in best
            .iter_mut()
            .zip([Work::Library, Work::Plain, Work::Copy])
        {
            let start = Instant::now();
            work(turn);
            *best = best.min(start.elapsed().as_nanos() as f64 / 1_000.0);
        }
    }
    let [library, plain, copy] = best;
    let [to_plain, to_copy] = [library / plain, library / copy];
    print!("{what:<8}{depth:>5}  {content:<7}{library:>12.0}{plain:>12.0}{to_plain:>9.2}");
    println!("{copy:>12.0}{to_copy:>9.2}");
}
