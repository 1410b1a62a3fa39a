//! Compares the writers: equal answers, equal outputs. What is written is read
//! and decoded to what it was written from.

use xcf_compare::answer::{
    BAD_BASE, BAD_SIDE, DecodeAnswer, DecodeDrawable, OUTPUT_TOO_SHORT, ReadAnswer, Row,
    TABLE_LENGTH, UNUSABLE_ROW, WRONG_LENGTH, WriteAnswer,
};
use xcf_compare::files::widened;
use xcf_compare::guard::difference;
use xcf_compare::implementation::{ALL, Implementation, agree};
use xcf_compare::random::Random;
use xcf_compare::tables::{Fault, Kind, TableCase, random_case, valid_case};
use xcf_compare::tally::Tally;
use xcf_compare::{report, write};

const SEED: u64 = 0x7772_6974_6500_0001;
const REFERENCE_SEED: u64 = 0x7772_6974_6500_0002;
const CASES: usize = 20_000;
const REFERENCE_CASES: usize = 2_000;
const LONG_CASES: usize = 1_000;

/// The refusals that the writer can meet.
const NUMBERS: [u64; 5] = [
    BAD_SIDE,
    BAD_BASE,
    WRONG_LENGTH,
    UNUSABLE_ROW,
    OUTPUT_TOO_SHORT,
];

/// Writes with all and asserts that they agree; gives the answer and the
/// output.
fn write_case(case: &TableCase) -> (WriteAnswer, Vec<u8>) {
    let (answer, [output]) = agree(
        || case.summary(),
        |by| {
            let (answer, output) = case.write(by.write);
            (answer, [output])
        },
    );
    (answer, output)
}

/// Asserts that the output is as lent behind what was written, and that answer
/// and output are the known ones.
fn assert_known(case: &TableCase, answer: WriteAnswer, output: &[u8]) {
    let (file, beyond) = output.split_at(answer.length as usize);
    let lent = &case.output[file.len()..];
    assert_eq!(difference(beyond, lent), None, "{}", case.summary());
    if let Some(known) = &case.known {
        assert_eq!(answer, known.answer, "{}", case.summary());
        assert_eq!(difference(file, &known.file), None, "{}", case.summary());
    }
}

/// Asserts, with all readers and decoders, that a file gives back the canvas,
/// the rows, their names and their pixels.
fn assert_reads_back(case: &TableCase, file: &[u8]) {
    for by in ALL {
        let mut table = vec![0xA5A5_A5A5; TABLE_LENGTH];
        let answer = (by.read)(file, &mut table);
        assert_eq!(answer, answer_to_reading(case), "{}", case.summary());
        assert_same_rows(case, file, &table);
        assert_same_pixels(case, file, &table, by.decode);
    }
}

fn answer_to_reading(case: &TableCase) -> ReadAnswer {
    let is_new = case.rows().iter().any(|row| row[14] >= 19);
    ReadAnswer {
        number: 0,
        place: 0,
        width: case.width.into(),
        height: case.height.into(),
        base: case.base.into(),
        version: if is_new { 2 } else { 0 },
        compression: 1,
        rows: case.used() as u64,
        pointer_size: 4,
    }
}

/// Asserts that the names' bytes are the same, and all fields of used rows but
/// the three that are places in the file; unused rows are zero.
fn assert_same_rows(case: &TableCase, file: &[u8], table: &[u32]) {
    let rows: &[Row] = table.as_chunks().0;
    let (used, unused) = rows.split_at(case.used());
    for (found, written) in used.iter().zip(case.rows()) {
        let name = &file[found[5] as usize..][..found[6] as usize];
        assert_eq!(name, case.name(written), "{}", case.summary());
        let mut expected = *written;
        for place in [5, 7, 8] {
            expected[place] = found[place];
        }
        assert_eq!(*found, expected, "{}", case.summary());
    }
    for found in unused {
        assert_eq!(*found, [0; 16], "{}", case.summary());
    }
}

/// Asserts that every drawable has its pixels, and no tile a mark.
fn assert_same_pixels(case: &TableCase, file: &[u8], table: &[u32], decode: DecodeDrawable) {
    let mut rest = &case.pixels[..];
    for (index, row) in case.rows()[..case.used()].iter().enumerate() {
        let (expected, later) = rest.split_at((row[1] * row[2] * row[3]) as usize);
        rest = later;
        let mut pixels = vec![0xA5; expected.len()];
        let mut marks = vec![0xA5; row[9] as usize];
        let answer = decode(file, table, index as u32, 1, 4, &mut pixels, &mut marks);
        assert_eq!(answer, DecodeAnswer::decoded(0), "{}", case.summary());
        assert!(marks.iter().all(|&mark| mark == 0), "{}", case.summary());
        assert_eq!(difference(&pixels, expected), None, "{}", case.summary());
    }
    assert!(rest.is_empty(), "{}", case.summary());
}

/// What is read of a picture in version 11 is written like any other: with its
/// places set to 0, and the file itself for names, all write the same file.
#[test]
fn rows_of_version_11_are_written() {
    let mut random = Random::new(SEED ^ 11);
    let mut rows = 0;
    for _ in 0..LONG_CASES {
        let case = valid_case(&mut random);
        let known = case.known.as_ref().expect("what is written");
        let file = widened(&known.file);
        for by in ALL {
            let lent = read_again(&case, &file, &by);
            let (answer, mut output) = lent.write(by.write);
            assert_eq!(answer, known.answer, "{}", case.summary());
            let written = &output.lent()[..known.file.len()];
            assert_eq!(difference(written, &known.file), None, "{}", case.summary());
        }
        rows += case.used();
    }
    report(&format!(
        "written: {rows} rows that were read in version 11"
    ));
    assert!(rows >= 2_000);
}

/// The call that writes what reading and decoding a file of version 11 gives.
fn read_again(case: &TableCase, file: &[u8], by: &Implementation) -> TableCase {
    let mut table = vec![0xA5A5_A5A5; TABLE_LENGTH];
    let answer = (by.read)(file, &mut table);
    assert_eq!((answer.version, answer.pointer_size), (11, 8));
    let mut pixels = Vec::new();
    for (index, row) in case.rows()[..case.used()].iter().enumerate() {
        let mut decoded = vec![0xA5; (row[1] * row[2] * row[3]) as usize];
        let mut marks = vec![0xA5; row[9] as usize];
        let answer = (by.decode)(file, &table, index as u32, 1, 8, &mut decoded, &mut marks);
        assert_eq!(answer, DecodeAnswer::decoded(0), "{}", case.summary());
        pixels.extend(decoded);
    }
    for row in table.chunks_mut(16) {
        [row[7], row[8]] = [0, 0];
    }
    TableCase {
        table,
        names: file.to_vec(),
        pixels,
        ..case.clone()
    }
}

/// What was seen in the files that were written.
#[derive(Default)]
struct Seen {
    no_rows: usize,
    full_tables: usize,
    exact_outputs: usize,
    longer_outputs: usize,
    /// Files of version 0, and of version 2.
    versions: [usize; 2],
    /// Drawables of the kinds 1 to 3, of the depths 1 to 4, of the modes, and
    /// with each of the flags that are stored.
    kinds: [usize; 4],
    depths: [usize; 5],
    modes: [usize; 22],
    flags: [usize; 4],
    /// Drawables of several tiles, the last of them cut, in both directions.
    ragged: usize,
    empty_names: usize,
    longest_names: usize,
    /// Names with a zero byte.
    zeros: usize,
    /// Names that are UTF-8 but not ASCII, and that are neither.
    beyond_ascii: usize,
    not_utf8: usize,
}

impl Seen {
    fn add(&mut self, case: &TableCase, answer: WriteAnswer) {
        let rows = &case.rows()[..case.used()];
        let is_exact = case.output.len() == answer.length as usize;
        self.no_rows += usize::from(rows.is_empty());
        self.full_tables += usize::from(rows.len() == 128);
        self.exact_outputs += usize::from(is_exact);
        self.longer_outputs += usize::from(!is_exact);
        self.versions[(answer_to_reading(case).version / 2) as usize] += 1;
        for row in rows {
            self.add_row(case, row);
        }
    }

    fn add_row(&mut self, case: &TableCase, row: &Row) {
        self.kinds[row[0] as usize] += 1;
        self.depths[row[3] as usize] += 1;
        self.modes[row[14] as usize] += 1;
        for (bit, count) in self.flags.iter_mut().enumerate() {
            *count += (row[11] >> bit & 1) as usize;
        }
        let is_ragged = |side: u32| side > 64 && !side.is_multiple_of(64);
        self.ragged += usize::from(is_ragged(row[1]) && is_ragged(row[2]));
        self.empty_names += usize::from(row[6] == 0);
        self.longest_names += usize::from(row[6] == 1_024);
        let (name, is_utf8) = (case.name(row), row[11] & 32 == 0);
        self.zeros += usize::from(name.contains(&0));
        self.beyond_ascii += usize::from(is_utf8 && !name.is_ascii());
        self.not_utf8 += usize::from(!is_utf8);
    }

    fn report(&self) {
        report(&format!(
            "written: {} without rows, {} with 128, {} outputs exact, {} longer, versions 0 and 2 \
             {:?}, kinds {:?}, depths {:?}, flags {:?}, {} with several cut tiles both ways, {} \
             empty names, {} of 1,024 bytes, {} with a zero byte, {} UTF-8 and not ASCII, {} not \
             UTF-8",
            self.no_rows,
            self.full_tables,
            self.exact_outputs,
            self.longer_outputs,
            self.versions,
            &self.kinds[1..],
            &self.depths[1..],
            self.flags,
            self.ragged,
            self.empty_names,
            self.longest_names,
            self.zeros,
            self.beyond_ascii,
            self.not_utf8
        ));
    }

    /// Asserts that all is there often enough to be worth running.
    fn assert_varied(&self) {
        assert!(self.no_rows >= 300 && self.full_tables >= 15);
        assert!(self.exact_outputs >= 1_000 && self.longer_outputs >= 1_000);
        assert!(self.versions.iter().all(|&count| count >= 1_000));
        assert!(self.kinds[1..].iter().all(|&count| count >= 5_000));
        assert!(self.depths[1..].iter().all(|&count| count >= 3_000));
        assert!(self.modes.iter().all(|&count| count >= 300));
        assert!(self.flags.iter().all(|&count| count >= 1_500));
        assert!(self.ragged >= 500);
        assert!(self.empty_names >= 3_000 && self.longest_names >= 500 && self.zeros >= 500);
        assert!(self.beyond_ascii >= 1_500 && self.not_utf8 >= 3_000);
    }
}

#[test]
fn written_files_agree() {
    let mut random = Random::new(SEED);
    let mut tally = Tally::default();
    let mut seen = Seen::default();
    for _ in 0..CASES {
        let case = random_case(&mut random);
        let (answer, output) = write_case(&case);
        assert_known(&case, answer, &output);
        if answer.number == 0 {
            assert_reads_back(&case, &output[..answer.length as usize]);
            seen.add(&case, answer);
        }
        tally.add(case.kind, answer.number);
    }
    tally.report("write");
    seen.report();
    seen.assert_varied();
    assert_tallied(&tally);
}

/// Asserts that every outcome and every fault is there often enough, and no
/// other outcome.
fn assert_tallied(tally: &Tally<Kind>) {
    assert!(tally.of(Kind::Valid, 0) >= 7_000);
    for fault in Fault::ALL {
        let count = tally.of(Kind::Single(fault), fault.number());
        assert!(count >= 200, "{fault:?}: {count}");
    }
    for number in NUMBERS {
        let count = tally.of(Kind::Several, number);
        assert!(count >= 100, "{number}: {count}");
    }
    let refused: usize = NUMBERS.iter().map(|&number| tally.all(number)).sum();
    assert_eq!(tally.all(0) + refused, CASES);
}

/// What the reference writes is read and decoded the same.
#[test]
fn reference_round_trip() {
    let mut random = Random::new(REFERENCE_SEED);
    for _ in 0..REFERENCE_CASES {
        let case = valid_case(&mut random);
        let (answer, mut output) = case.write(write::write);
        assert_known(&case, answer, output.lent());
        assert_reads_back(&case, &output.lent()[..answer.length as usize]);
    }
}
