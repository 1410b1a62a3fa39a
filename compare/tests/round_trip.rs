//! What is encoded decodes to the same pixels, and takes no more bytes than
//! the bound.

use xcf_compare::answer::{Decode, Encode, GOOD, TileAnswer};
use xcf_compare::cases::Shape;
use xcf_compare::cases::encode::{hard_stream, random_pixels, random_stream};
use xcf_compare::implementation::{ALL, LIBRARY, PLAIN};
use xcf_compare::random::Random;
use xcf_compare::report;
use xcf_compare::tile::{encode_stream, stream_bound};

const ROUND_TRIP_SEED: u64 = 0x726F_756E_6400_0001;
const BOUND_SEED: u64 = 0x626F_756E_6400_0001;
const ROUND_TRIPS: usize = 10_000;

/// An output that every encoding of the shape fits.
fn output_for(shape: Shape) -> Vec<u8> {
    vec![0xA5; shape.depth as usize * stream_bound(shape.stream_length())]
}

/// Encodes, adds a random tail, decodes.
fn round_trip(random: &mut Random, encode: Encode, decode: Decode) {
    let shape = Shape::random(random);
    let Shape {
        width,
        height,
        depth,
    } = shape;
    let pixels = random_pixels(random, shape);
    let mut window = output_for(shape);
    let written = encode(&pixels, width, height, depth, &mut window);
    assert_eq!((written.number, written.place), (0, 0), "{shape:?}");
    window.truncate(written.length as usize);
    let operations = count_operations(&pixels, depth as usize);
    let tail = random.below(50);
    window.extend(random.bytes(tail));
    let mut decoded = random.bytes(shape.pixels_length());
    let answer = decode(&window, width, height, depth, 1, &mut decoded);
    let expected = TileAnswer::decoded(GOOD, written.length as usize, operations);
    assert_eq!(answer, expected, "{shape:?}");
    assert!(decoded == pixels, "{shape:?}");
}

/// The operations that the pixels' encoding has: one for each run of three or
/// more, and one for each stretch between such runs.
fn count_operations(pixels: &[u8], depth: usize) -> usize {
    (0..depth)
        .map(|k| {
            let stream: Vec<u8> = pixels.iter().skip(k).step_by(depth).copied().collect();
            let mut stretches = 0;
            let mut copying = false;
            for group in stream.chunk_by(|a, b| a == b) {
                let run = group.len() >= 3;
                stretches += usize::from(run || !copying);
                copying = !run;
            }
            stretches
        })
        .sum()
}

/// Each implementation decodes what each encodes.
#[test]
fn round_trips() {
    for encoder in ALL {
        for decoder in ALL {
            let mut random = Random::new(ROUND_TRIP_SEED);
            for _ in 0..ROUND_TRIPS {
                round_trip(&mut random, encoder.encode_tile, decoder.decode_tile);
            }
        }
    }
}

/// Streams of `length` bytes that are likely to need many.
fn demanding_streams(random: &mut Random, length: usize) -> Vec<Vec<u8>> {
    let pairs = |i: usize| (i / 2) as u8;
    let period = |copied: usize, equal: usize| {
        let stream = (0..length).map(move |i| match i % (copied + equal) {
            place if place < copied => place as u8,
            _ => 250,
        });
        stream.collect::<Vec<u8>>()
    };
    vec![
        hard_stream(length),
        period(127, 3),
        period(129, 3),
        period(128, 4),
        period(1, 3),
        period(1, 128),
        (0..length).map(pairs).collect(),
        (0..length).map(|i| i as u8).collect(),
        random_stream(random, length),
    ]
}

#[test]
fn reference_stays_within_the_bound() {
    let mut random = Random::new(BOUND_SEED);
    let mut at_bound = 0;
    for length in 1..=4096 {
        for stream in demanding_streams(&mut random, length) {
            let taken = encode_stream(&stream).len();
            assert!(taken <= stream_bound(length), "{length} bytes: {taken}");
            at_bound += usize::from(taken == stream_bound(length));
        }
    }
    report_at_bound("reference", at_bound);
}

#[test]
fn tiles_stay_within_the_bound() {
    for by in [LIBRARY, PLAIN] {
        let mut random = Random::new(BOUND_SEED);
        let mut at_bound = 0;
        for (width, height) in (1..=64).flat_map(|w| (w..=64).map(move |h| (w, h))) {
            let length = (width * height) as usize;
            for stream in demanding_streams(&mut random, length) {
                let mut output = output_for(Shape::new(width, height, 1));
                let answer = (by.encode_tile)(&stream, width, height, 1, &mut output);
                assert_eq!(answer.number, 0, "{width} by {height}");
                assert!(answer.length as usize <= stream_bound(length));
                at_bound += usize::from(answer.length as usize == stream_bound(length));
            }
        }
        report_at_bound(by.name, at_bound);
    }
}

/// Prints, even where output is captured, how many streams took all the bytes
/// that the bound allows; some must, or they were not demanding.
fn report_at_bound(what: &str, count: usize) {
    report(&format!(
        "bound: {count} streams at the bound by the {what}"
    ));
    assert!(count >= 20);
}

/// The bound is met at each length that ends just behind a long copy.
#[test]
fn bound_is_met() {
    for repeats in 0..=30 {
        let length = 131 * repeats + 128;
        let taken = encode_stream(&hard_stream(length)).len();
        assert_eq!(taken, stream_bound(length), "{length} bytes");
    }
}
