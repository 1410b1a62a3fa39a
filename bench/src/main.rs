//! Measures the library's decoder and encoder against plain Rust ones, in one
//! run, on 4,096 tiles of 64 by 64 pixels; then its reader, on whole files and
//! on long names, its decoder of whole drawables, and its writer; then a file
//! from the disk, also against ImageMagick.

mod decoding;
mod files;
mod names;
mod peers;
mod reading;
mod turns;
mod writing;

use std::hint::black_box;
use std::time::Instant;

use xcf_compare::answer::{Decode, Encode, WriteAnswer};
use xcf_compare::implementation::{LIBRARY, PLAIN};
use xcf_compare::random::Random;
use xcf_compare::tile;

const SEED: u64 = 0x7863_6600_6265_6E63;
const TILES: usize = 4_096;
const SIDE: u32 = 64;
const ROUNDS: usize = 11;

/// Room for the encoding of any tile of 64 by 64.
const OUTPUT_LENGTH: usize = 4 * 4_200;

/// The tiles of one case, each with its own pixels and its own window.
struct Tiles {
    content: &'static str,
    depth: u32,
    pixels: Vec<Vec<u8>>,
    windows: Vec<Vec<u8>>,
}

impl Tiles {
    fn new(content: &'static str, depth: u32, mut make: impl FnMut(usize) -> Vec<u8>) -> Self {
        let length = (SIDE * SIDE * depth) as usize;
        let pixels: Vec<Vec<u8>> = (0..TILES).map(|_| make(length)).collect();
        let encode = |pixels: &Vec<u8>| tile::encode_pixels(pixels, depth as usize);
        let windows = pixels.iter().map(encode).collect();
        Tiles {
            content,
            depth,
            pixels,
            windows,
        }
    }

    fn white(depth: u32) -> Self {
        Tiles::new("white", depth, |length| vec![0xFF; length])
    }

    fn noise(depth: u32) -> Self {
        let mut random = Random::new(SEED);
        Tiles::new("noise", depth, |length| random.bytes(length))
    }

    /// Stops unless the decoder gives each tile's pixels.
    fn check_decoder(&self, decode: Decode) {
        let mut pixels = vec![0xA5; self.pixels[0].len()];
        for (window, expected) in self.windows.iter().zip(&self.pixels) {
            let answer = decode(window, SIDE, SIDE, self.depth, 1, &mut pixels);
            assert_eq!((answer.number, answer.mark), (0, 0));
            assert!(pixels == *expected, "decoded pixels differ");
        }
    }

    /// Stops unless the encoder gives each tile's window.
    fn check_encoder(&self, encode: Encode) {
        let mut output = vec![0xA5; OUTPUT_LENGTH];
        for (pixels, expected) in self.pixels.iter().zip(&self.windows) {
            let answer = encode(pixels, SIDE, SIDE, self.depth, &mut output);
            assert_eq!(answer, WriteAnswer::written(expected.len()));
            assert!(output[..expected.len()] == *expected, "encodings differ");
        }
    }

    /// Decodes all tiles into the same pixels; gives the time for one in
    /// nanoseconds.
    fn time_decoder(&self, decode: Decode, pixels: &mut [u8]) -> f64 {
        let start = Instant::now();
        for window in &self.windows {
            let pixels = black_box(&mut *pixels);
            black_box(decode(window, SIDE, SIDE, self.depth, 1, pixels));
        }
        start.elapsed().as_nanos() as f64 / TILES as f64
    }

    /// Encodes all tiles into the same output; gives the time for one in
    /// nanoseconds.
    fn time_encoder(&self, encode: Encode, output: &mut [u8]) -> f64 {
        let start = Instant::now();
        for pixels in &self.pixels {
            let output = black_box(&mut *output);
            black_box(encode(pixels, SIDE, SIDE, self.depth, output));
        }
        start.elapsed().as_nanos() as f64 / TILES as f64
    }

    fn compare_decoders(&self) {
        self.check_decoder(LIBRARY.decode_tile);
        self.check_decoder(PLAIN.decode_tile);
        let mut pixels = vec![0; self.pixels[0].len()];
        let (library, plain) = alternate(|which| match which {
            Which::Library => self.time_decoder(LIBRARY.decode_tile, &mut pixels),
            Which::Plain => self.time_decoder(PLAIN.decode_tile, &mut pixels),
        });
        self.print("decode", library, plain);
    }

    fn compare_encoders(&self) {
        self.check_encoder(LIBRARY.encode_tile);
        self.check_encoder(PLAIN.encode_tile);
        let mut output = vec![0; OUTPUT_LENGTH];
        let (library, plain) = alternate(|which| match which {
            Which::Library => self.time_encoder(LIBRARY.encode_tile, &mut output),
            Which::Plain => self.time_encoder(PLAIN.encode_tile, &mut output),
        });
        self.print("encode", library, plain);
    }

    fn print(&self, what: &str, library: f64, plain: f64) {
        let Tiles { content, depth, .. } = self;
        let ratio = library / plain;
        println!("{what:<8}{depth:>5}  {content:<7}{library:>12.0}{plain:>12.0}{ratio:>9.2}");
    }
}

enum Which {
    Library,
    Plain,
}

/// Measures the two by turns; gives the median of each.
fn alternate(mut measure: impl FnMut(Which) -> f64) -> (f64, f64) {
    let (library, plain) = (0..ROUNDS)
        .map(|_| (measure(Which::Library), measure(Which::Plain)))
        .unzip();
    (median(library), median(plain))
}

fn median(mut times: Vec<f64>) -> f64 {
    times.sort_by(f64::total_cmp);
    times[times.len() / 2]
}

fn main() {
    println!("{TILES} tiles of {SIDE} by {SIDE}, medians of {ROUNDS} rounds, ns for a tile");
    println!();
    println!("         depth content     library       plain    ratio");
    for depth in 1..=4 {
        for make in [Tiles::white, Tiles::noise] {
            let tiles = make(depth);
            tiles.compare_decoders();
            tiles.compare_encoders();
        }
    }
    println!();
    reading::compare_readers();
    println!();
    names::compare_names();
    println!();
    decoding::compare_decoders();
    println!();
    writing::compare_writers();
    println!();
    peers::compare_peers();
}
