//! Measures a whole file from the disk to its pixels: by the library, by plain
//! Rust, and by ImageMagick's own reader.

use std::fs;
use std::hint::black_box;
use std::path::Path;
use std::process::Command;
use std::time::Instant;

use xcf_compare::answer::{DecodeDrawable, Read, TABLE_LENGTH};
use xcf_compare::gimp::data_folder;
use xcf_compare::implementation::{LIBRARY, PLAIN};
use xcf_compare::programs::{IMAGE_MAGICK, Scratch, is_here};

use crate::ROUNDS;
use crate::decoding::Drawable;
use crate::turns::{SIDE, contents};

/// Buffers that are lent to every call.
struct Lent {
    table: Vec<u32>,
    pixels: Vec<u8>,
    marks: Vec<u8>,
}

pub fn compare_peers() {
    if !is_here(IMAGE_MAGICK) {
        println!("{IMAGE_MAGICK} is not on this machine: ImageMagick was not measured");
        return;
    }
    println!(
        "Files of a layer of {SIDE} by {SIDE} from disk to pixels, best of {ROUNDS} rounds, us for a file"
    );
    println!();
    println!("         depth content     library       plain    ratio  ImageMagick    times");
    for depth in [1, 4] {
        for (content, pixels) in contents(depth) {
            let file = Drawable::new(content, depth, pixels).file;
            compare(content, depth, &file);
        }
    }
}

fn compare(content: &str, depth: usize, file: &[u8]) {
    let scratch = Scratch::new("bench");
    let path = scratch.file("large", "xcf");
    fs::write(&path, file).expect("the temporary folder can be written");
    let small = data_folder().join("tiny.xcf");
    let mut lent = Lent {
        table: vec![0; TABLE_LENGTH],
        pixels: vec![0; SIDE * SIDE * depth],
        marks: vec![0; (SIDE / 64) * (SIDE / 64)],
    };
    let mut best = [f64::INFINITY; 4];
    for _ in 0..ROUNDS {
        let turns = [
            time(|| decode(&path, LIBRARY.read, LIBRARY.decode, &mut lent)),
            time(|| decode(&path, PLAIN.read, PLAIN.decode, &mut lent)),
            time(|| run(&path)),
            time(|| run(&small)),
        ];
        for (best, turn) in best.iter_mut().zip(turns) {
            *best = best.min(turn);
        }
    }
    let [library, plain, whole, start] = best;
    // What it takes to start the program and end it is not reading.
    let peer = whole - start;
    let (to_plain, of_peer) = (library / plain, peer / library);
    print!("file    {depth:>5}  {content:<7}{library:>12.0}{plain:>12.0}{to_plain:>9.2}");
    println!("{peer:>13.0}{of_peer:>9.0}");
}

/// The time of some work in microseconds.
fn time(work: impl FnOnce()) -> f64 {
    let start = Instant::now();
    work();
    start.elapsed().as_nanos() as f64 / 1_000.0
}

fn decode(path: &Path, read: Read, decode: DecodeDrawable, lent: &mut Lent) {
    let Lent {
        table,
        pixels,
        marks,
    } = lent;
    let file = fs::read(path).expect("the file is there");
    let answer = read(&file, table);
    let [compression, pointer_size] = answer.form();
    let pixels = black_box(pixels);
    let answer = decode(&file, table, 0, compression, pointer_size, pixels, marks);
    assert_eq!((answer.number, answer.marked), (0, 0));
}

fn run(path: &Path) {
    let status = Command::new(IMAGE_MAGICK)
        .arg(format!("xcf:{}", path.display()))
        .arg("null:")
        .status();
    assert!(status.expect("the program runs").success());
}
