//! Compares the decoders of drawables: equal answers, equal pixels, equal marks,
//! and, where marked tiles are counted, the same count.

use xcf_compare::answer::{
    BAD_TILE_POINTER, DecodeAnswer, GOOD, OVERRUN, TABLE_LENGTH, TOO_SOON, UNUSABLE, WRONG_LENGTH,
};
use xcf_compare::cases::drawable::{DrawableCase, Kind, random_case};
use xcf_compare::decode::Drawable;
use xcf_compare::files::version::{VERSIONS, of_tag};
use xcf_compare::guard::{Guarded, difference};
use xcf_compare::implementation::agree;
use xcf_compare::random::Random;
use xcf_compare::tally::Tally;
use xcf_compare::{decode, library, report};

const SEED: u64 = 0x6472_6177_0000_0001;
const CASES: usize = 40_000;

/// Decodes with all and asserts that they agree; gives the answer and the
/// marks.
fn decode_case(case: &DrawableCase) -> (DecodeAnswer, Vec<u8>) {
    let (file, table) = (&case.file, &case.table);
    let (row, compression, size) = (case.row, case.compression, case.pointer_size);
    let (answer, [pixels, marks]) = agree(
        || case.summary(),
        |by| {
            let mut lent = [&case.pixels, &case.marks].map(|lent| Guarded::new(lent));
            let [pixels, marks] = lent.each_mut().map(Guarded::lent);
            let answer = (by.decode)(file, table, row, compression, size, pixels, marks);
            (answer, lent)
        },
    );
    if answer.number == 0 {
        assert_zero_where_marked(case, &pixels, &marks);
    } else {
        assert_eq!(difference(&pixels, &case.pixels), None);
        assert_eq!(difference(&marks, &case.marks), None);
    }
    (answer, marks)
}

/// Asserts that the pixels of marked tiles are all zero.
fn assert_zero_where_marked(case: &DrawableCase, pixels: &[u8], marks: &[u8]) {
    let DrawableCase {
        row,
        compression,
        pointer_size,
        ..
    } = *case;
    let drawable = Drawable::new(&case.file, &case.table, row, compression, pointer_size);
    let drawable = drawable.expect("the row was decoded");
    for (tile, &mark) in marks.iter().enumerate() {
        let is_zero = || drawable.cut_out(tile, pixels).iter().all(|&byte| byte == 0);
        assert!(mark == 0 || is_zero(), "tile {tile} of {}", case.summary());
    }
}

/// Counts with both and asserts that they agree; gives the answer.
fn count_both(case: &DrawableCase) -> DecodeAnswer {
    let DrawableCase {
        row,
        compression,
        pointer_size,
        ..
    } = *case;
    let [expected, given] = [decode::count_marked, library::count_marked]
        .map(|count| count(&case.file, &case.table, row, compression, pointer_size));
    assert_eq!(given, expected, "{}", case.summary());
    expected
}

/// What was seen in the drawables that were decoded.
#[derive(Default)]
struct Seen {
    good: usize,
    too_soon: usize,
    overrun: usize,
    /// Drawables with good and with marked tiles.
    mixed: usize,
    /// Drawables of several tiles, the last of them cut, in both directions.
    ragged: usize,
    /// Decoded drawables of each depth, of each compression, of pointers of 4
    /// and 8 bytes and, where the file is a valid one, of each version.
    depths: [usize; 5],
    compressions: [usize; 2],
    pointer_sizes: [usize; 2],
    versions: [usize; VERSIONS.len()],
    /// Drawables in the last row of the table.
    last_rows: usize,
    /// Calls that only the lent pixels or marks refused, so that counting
    /// succeeds.
    counted_alone: usize,
}

impl Seen {
    fn add(&mut self, case: &DrawableCase, answer: DecodeAnswer, marks: &[u8]) {
        let count = |mark: u64| marks.iter().filter(|&&m| u64::from(m) == mark).count();
        let (good, too_soon, overrun) = (count(GOOD), count(TOO_SOON), count(OVERRUN));
        assert_eq!(good + too_soon + overrun, marks.len());
        assert_eq!(answer, DecodeAnswer::decoded(too_soon + overrun));
        self.good += good;
        self.too_soon += too_soon;
        self.overrun += overrun;
        self.mixed += usize::from(0 < good && good < marks.len());
        let row = case.row_numbers().expect("the row was decoded");
        let is_ragged = |side: u32| side > 64 && !side.is_multiple_of(64);
        self.ragged += usize::from(is_ragged(row[1]) && is_ragged(row[2]));
        self.depths[row[3] as usize] += 1;
        self.compressions[case.compression as usize] += 1;
        self.pointer_sizes[case.pointer_size as usize / 8] += 1;
        self.last_rows += usize::from(case.row == 127);
        if case.kind == Kind::Read {
            let version = of_tag(&case.file[9..14]).expect("a valid file");
            let index = VERSIONS.iter().position(|&other| other == version);
            self.versions[index.expect("one of them")] += 1;
        }
    }

    fn report(&self) {
        report(&format!(
            "drawables: {} good tiles, {} marked 20, {} marked 21, {} mixed, {} with several cut \
             tiles both ways, {} in the last row, depths {:?}, compressions {:?}, pointers of 4 \
             and 8 bytes {:?}, versions {:?}, {} counted alone",
            self.good,
            self.too_soon,
            self.overrun,
            self.mixed,
            self.ragged,
            self.last_rows,
            &self.depths[1..],
            self.compressions,
            self.pointer_sizes,
            self.versions,
            self.counted_alone
        ));
    }

    /// Asserts that all is there often enough to be worth running.
    fn assert_varied(&self) {
        assert!(self.good >= 25_000 && self.too_soon >= 12_000 && self.overrun >= 7_000);
        assert!(self.mixed >= 3_000 && self.ragged >= 1_500 && self.last_rows >= 2_500);
        assert!(self.depths[1..].iter().all(|&count| count >= 1_500));
        assert!(self.compressions.iter().all(|&count| count >= 3_000));
        assert!(self.pointer_sizes.iter().all(|&count| count >= 6_000));
        assert!(self.versions.iter().all(|&count| count >= 1_500));
        assert!(self.counted_alone >= 700);
    }
}

#[test]
fn drawables_agree() {
    let mut random = Random::new(SEED);
    let mut tally = Tally::default();
    let mut seen = Seen::default();
    for _ in 0..CASES {
        let case = random_case(&mut random);
        let (answer, marks) = decode_case(&case);
        let counted = count_both(&case);
        if let Some((number, place)) = case.known {
            let given = (answer.number, answer.place as usize);
            assert_eq!(given, (number, place), "{}", case.summary());
        }
        if answer.number == 0 {
            seen.add(&case, answer, &marks);
        }
        // Only the lent pixels and marks make a difference.
        if answer.number == WRONG_LENGTH && case.table.len() == TABLE_LENGTH {
            assert!(counted.number == 0 || case.kind == Kind::Several);
            seen.counted_alone += usize::from(counted.number == 0);
        } else {
            assert_eq!(counted, answer, "{}", case.summary());
        }
        tally.add(case.kind, answer.number);
    }
    tally.report("drawable");
    seen.report();
    seen.assert_varied();
    assert_tallied(&tally);
}

/// Asserts that every outcome is there often enough, and no other.
fn assert_tallied(tally: &Tally<Kind>) {
    let mut sum = 0;
    for (number, least) in [
        (0, 12_000),
        (WRONG_LENGTH, 1_500),
        (UNUSABLE, 5_000),
        (BAD_TILE_POINTER, 2_500),
    ] {
        assert!(tally.all(number) >= least, "{number}");
        sum += tally.all(number);
    }
    assert_eq!(sum, CASES);
    for number in [WRONG_LENGTH, UNUSABLE, BAD_TILE_POINTER] {
        assert!(tally.of(Kind::Several, number) >= 400, "{number}");
    }
    for (kind, number) in [
        (Kind::Read, 0),
        (Kind::Damaged, 0),
        (Kind::Loose, 0),
        (Kind::Field, UNUSABLE),
        (Kind::RowNumber, UNUSABLE),
        (Kind::Compression, UNUSABLE),
        (Kind::PointerSize, UNUSABLE),
        (Kind::OtherSize, BAD_TILE_POINTER),
        (Kind::WrongLength, WRONG_LENGTH),
        (Kind::Pointer, BAD_TILE_POINTER),
    ] {
        assert!(tally.of(kind, number) >= 1_000, "{kind:?}");
    }
}
