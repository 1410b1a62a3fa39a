//! Compares the implementations on tiles: equal answers, equal buffers.

use std::collections::BTreeMap;
use std::fmt::Debug;

use xcf_compare::answer::{
    GOOD, OUTPUT_TOO_SHORT, OVERRUN, TOO_SOON, TileAnswer, UNUSABLE, WRONG_LENGTH, WriteAnswer,
};
use xcf_compare::cases::decode::{self, DecodeCase};
use xcf_compare::cases::encode::{self, EncodeCase};
use xcf_compare::guard::{Guarded, difference};
use xcf_compare::implementation::agree;
use xcf_compare::random::Random;
use xcf_compare::{report, tile};

const DECODE_SEED: u64 = 0x6465_636F_6465_0001;
const ENCODE_SEED: u64 = 0x656E_636F_6465_0001;
const DECODE_CASES: usize = 80_000;
const ENCODE_CASES: usize = 40_000;

/// Decodes with all and asserts that they agree; gives the answer and the
/// pixels.
fn decode_case(case: &DecodeCase) -> (TileAnswer, Vec<u8>) {
    let (width, height, depth) = (case.width, case.height, case.depth);
    let (window, compression) = (&case.window, case.compression);
    let (answer, [pixels]) = agree(
        || case.summary(),
        |by| {
            let mut pixels = Guarded::new(&case.pixels);
            let lent = pixels.lent();
            let answer = (by.decode_tile)(window, width, height, depth, compression, lent);
            (answer, [pixels])
        },
    );
    (answer, pixels)
}

/// Encodes with all and asserts that they agree; gives the answer.
fn encode_case(case: &EncodeCase) -> WriteAnswer {
    let (width, height, depth) = (case.width, case.height, case.depth);
    let (answer, [output]) = agree(
        || case.summary(),
        |by| {
            let mut output = Guarded::new(&case.output);
            let answer = (by.encode_tile)(&case.pixels, width, height, depth, output.lent());
            (answer, [output])
        },
    );
    let beyond = answer.length as usize..;
    assert!(output[beyond.clone()] == case.output[beyond]);
    answer
}

/// How many cases of each kind came to each outcome, a number and a mark.
#[derive(Default)]
struct Tally {
    counts: BTreeMap<(String, u64, u64), usize>,
}

impl Tally {
    fn add(&mut self, kind: impl Debug, number: u64, mark: u64) {
        let key = (format!("{kind:?}"), number, mark);
        *self.counts.entry(key).or_default() += 1;
    }

    /// Cases of all kinds with the outcome.
    fn all(&self, number: u64, mark: u64) -> usize {
        let counts = self.counts.iter();
        let matching = counts.filter(|(key, _)| (key.1, key.2) == (number, mark));
        matching.map(|(_, count)| count).sum()
    }

    /// Cases of one kind with the outcome.
    fn of(&self, kind: impl Debug, number: u64, mark: u64) -> usize {
        let key = (format!("{kind:?}"), number, mark);
        self.counts.get(&key).copied().unwrap_or(0)
    }

    /// Prints the counts of each kind, each number not 0 as a refusal.
    fn report(&self, title: &str) {
        for ((kind, number, mark), count) in &self.counts {
            let outcome = match (number, mark) {
                (0, 0) => "good".to_string(),
                (0, mark) => format!("marked {mark}"),
                (number, _) => format!("refused {number}"),
            };
            report(&format!("{title}, {kind}: {count} {outcome}"));
        }
    }
}

#[test]
fn decode_cases_agree() {
    let mut random = Random::new(DECODE_SEED);
    let mut tally = Tally::default();
    for _ in 0..DECODE_CASES {
        let case = decode::random_case(&mut random);
        let (answer, pixels) = decode_case(&case);
        if let Some(known) = &case.known {
            assert_eq!(answer, known.answer, "{}", case.summary());
            assert_eq!(difference(&pixels, &known.pixels), None);
        }
        tally.add(case.kind, answer.number, answer.mark);
    }
    tally.report("decode");
    let good = tally.all(0, GOOD);
    let too_soon = tally.all(0, TOO_SOON);
    let overrun = tally.all(0, OVERRUN);
    let unusable = tally.all(UNUSABLE, 0);
    let wrong_length = tally.all(WRONG_LENGTH, 0);
    report(&format!(
        "decode: {DECODE_CASES} cases, {good} good, {too_soon} marked 20, {overrun} marked 21, \
         {unusable} refused 14, {wrong_length} refused 11"
    ));
    let sum = good + too_soon + overrun + unusable + wrong_length;
    assert_eq!(sum, DECODE_CASES);
    assert!(good >= 20_000 && too_soon >= 15_000 && overrun >= 10_000);
    assert!(unusable >= 4_000 && wrong_length >= 2_000);
    for (kind, mark, least) in [
        (decode::Kind::Limit, GOOD, 1_000),
        (decode::Kind::Limit, TOO_SOON, 1_000),
        (decode::Kind::Plain, GOOD, 3_000),
        (decode::Kind::Plain, TOO_SOON, 2_000),
        (decode::Kind::Overrun, TOO_SOON, 1_000),
        (decode::Kind::Noise, GOOD, 50),
        (decode::Kind::Noise, TOO_SOON, 100),
        (decode::Kind::Noise, OVERRUN, 2_000),
    ] {
        assert!(tally.of(kind, 0, mark) >= least, "{kind:?} {mark}");
    }
}

#[test]
fn encode_cases_agree() {
    let mut random = Random::new(ENCODE_SEED);
    let mut tally = Tally::default();
    for _ in 0..ENCODE_CASES {
        let case = encode::random_case(&mut random);
        let answer = encode_case(&case);
        let expected: &[u64] = match case.kind {
            encode::Kind::Exact | encode::Kind::Longer => &[0],
            encode::Kind::TooShort => &[OUTPUT_TOO_SHORT],
            encode::Kind::Refused => &[UNUSABLE, WRONG_LENGTH],
        };
        assert!(expected.contains(&answer.number), "{}", case.summary());
        tally.add(case.kind, answer.number, 0);
    }
    tally.report("encode");
    let good = tally.all(0, 0);
    let too_short = tally.all(OUTPUT_TOO_SHORT, 0);
    let unusable = tally.all(UNUSABLE, 0);
    let wrong_length = tally.all(WRONG_LENGTH, 0);
    report(&format!(
        "encode: {ENCODE_CASES} cases, {good} good, {too_short} refused 18, \
         {unusable} refused 14, {wrong_length} refused 11"
    ));
    assert_eq!(good + too_short + unusable + wrong_length, ENCODE_CASES);
    assert!(good >= 15_000 && too_short >= 8_000);
    assert!(unusable >= 4_000 && wrong_length >= 4_000);
}

/// All sequences of `length` bytes taken from `values`.
fn sequences(values: &[u8], length: usize) -> Vec<Vec<u8>> {
    let mut all = vec![Vec::new()];
    for _ in 0..length {
        let longer = |start: &Vec<u8>| {
            let start = start.clone();
            values
                .iter()
                .map(move |&value| [start.as_slice(), &[value]].concat())
        };
        all = all.iter().flat_map(longer).collect();
    }
    all
}

/// Every window of up to five bytes from a choice of opcodes and counts.
#[test]
fn every_short_window_agrees() {
    let mut tally = Tally::default();
    for length in 0..=5 {
        for window in sequences(&[0, 1, 2, 126, 127, 128, 129, 254, 255], length) {
            for (width, height, depth) in [(1, 1, 1), (2, 1, 1), (1, 1, 2), (1, 3, 1)] {
                let (answer, _) = decode_case(&DecodeCase {
                    kind: decode::Kind::Noise,
                    window: window.clone(),
                    width,
                    height,
                    depth,
                    compression: 1,
                    pixels: vec![0xA5; (width * height * depth) as usize],
                    known: None,
                });
                tally.add(decode::Kind::Noise, answer.number, answer.mark);
            }
        }
    }
    tally.report("every short");
    assert!(tally.all(0, GOOD) >= 40_000);
    assert!(tally.all(0, TOO_SOON) >= 5_000);
    assert!(tally.all(0, OVERRUN) >= 100_000);
}

/// Every stream of up to eight bytes of three values.
#[test]
fn every_short_stream_agrees() {
    for length in 1..=8 {
        for pixels in sequences(&[0, 1, 255], length) {
            let answer = encode_case(&EncodeCase {
                kind: encode::Kind::Longer,
                pixels,
                width: length as u32,
                height: 1,
                depth: 1,
                output: vec![0xA5; 20],
            });
            assert_eq!(answer.number, 0);
        }
    }
}

/// Streams of a whole tile that split at every place, encoded and decoded.
#[test]
fn every_count_agrees() {
    for count in 1..4096 {
        for pixels in encode::split_streams(4096, count) {
            let window = tile::encode_stream(&pixels);
            let answer = encode_case(&EncodeCase {
                kind: encode::Kind::Exact,
                pixels: pixels.clone(),
                width: 64,
                height: 64,
                depth: 1,
                output: vec![0xA5; window.len()],
            });
            assert_eq!(answer, WriteAnswer::written(window.len()));
            let (answer, decoded) = decode_case(&DecodeCase {
                kind: decode::Kind::Valid,
                window,
                width: 64,
                height: 64,
                depth: 1,
                compression: 1,
                pixels: vec![0xA5; 4096],
                known: None,
            });
            assert_eq!((answer.number, answer.mark), (0, GOOD));
            assert!(decoded == pixels, "{count}");
        }
    }
}
