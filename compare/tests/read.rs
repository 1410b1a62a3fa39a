//! Compares the readers: equal answers, equal tables.

use xcf_compare::answer::{
    FILE_LIMIT, FILE_TOO_LONG, NOT_XCF, PAST_END, ReadAnswer, Row, TABLE_LENGTH,
};
use xcf_compare::files::block::set_number;
use xcf_compare::files::laid::{END, pointers, version_11, with, with_byte, words};
use xcf_compare::files::version::{pointer_size, tag};
use xcf_compare::files::{EXAMPLE, FileCase, Kind, Known, random_case, random_file, table_of};
use xcf_compare::guard::{Guarded, difference};
use xcf_compare::implementation::agree;
use xcf_compare::random::Random;
use xcf_compare::report;
use xcf_compare::tally::Tally;

const FILES_SEED: u64 = 0x6669_6C65_7300_0001;
const CUTS_SEED: u64 = 0x6375_7473_0000_0001;
const FILE_CASES: usize = 80_000;

/// The refusals that a file of a usable length can meet.
const NUMBERS: [u64; 15] = [1, 2, 3, 4, 5, 6, 7, 8, 9, 10, 11, 12, 13, 16, 25];

/// Reads with all and asserts that they agree; gives the answer and the table.
fn read_case(case: &FileCase) -> (ReadAnswer, Vec<u32>) {
    let (answer, [table]) = agree(
        || case.summary(),
        |by| {
            let mut table = Guarded::new(&case.table);
            ((by.read)(&case.file, table.lent()), [table])
        },
    );
    (answer, table)
}

/// Asserts that an answer and a table are the known ones.
fn assert_known(case: &FileCase, known: &Known, answer: ReadAnswer, table: &[u32]) {
    let expected = match case.table.len() {
        TABLE_LENGTH => table_of(&known.rows),
        _ => case.table.clone(),
    };
    assert_eq!(answer, known.answer, "{}", case.summary());
    assert_eq!(difference(table, &expected), None, "{}", case.summary());
}

#[test]
fn files_agree() {
    let mut random = Random::new(FILES_SEED);
    let mut tally = Tally::default();
    let (mut known_cases, mut rows, mut full_tables) = (0, 0, 0);
    let (mut names, mut long) = (Names::default(), LongPointers::default());
    for _ in 0..FILE_CASES {
        let case = random_case(&mut random);
        let (answer, table) = read_case(&case);
        if let Some(known) = &case.known {
            assert_known(&case, known, answer, &table);
            known_cases += 1;
        }
        names.add(&case.file, &table[..16 * answer.rows as usize]);
        long.add(answer);
        rows += answer.rows;
        full_tables += usize::from(answer.rows == 128);
        tally.add(case.kind, answer.number);
    }
    tally.report("read");
    let accepted = tally.all(0);
    report(&format!(
        "read: {FILE_CASES} files, {accepted} accepted with {rows} rows, {known_cases} known \
         beforehand, {full_tables} full tables, {names:?}, {long:?}"
    ));
    assert_varied(&tally);
    assert!(long.accepted >= 4_000 && long.far >= 1_000 && long.near_last >= 100);
    assert!(known_cases >= 25_000 && rows >= 80_000 && full_tables >= 50);
    assert!(names.not_utf8 >= 5_000 && names.beyond_ascii >= 5_000 && names.ascii >= 5_000);
}

/// The names of rows that were read, but for empty ones.
#[derive(Debug, Default)]
struct Names {
    ascii: usize,
    /// Other names that are well-formed UTF-8.
    beyond_ascii: usize,
    not_utf8: usize,
}

impl Names {
    fn add(&mut self, file: &[u8], used: &[u32]) {
        let rows: &[Row] = used.as_chunks().0;
        for row in rows.iter().filter(|row| row[6] > 0) {
            let name = &file[row[5] as usize..][..row[6] as usize];
            let count = match row[11] & 32 {
                0 if name.is_ascii() => &mut self.ascii,
                0 => &mut self.beyond_ascii,
                _ => &mut self.not_utf8,
            };
            *count += 1;
        }
    }
}

/// What came of pointers of 8 bytes.
#[derive(Debug, Default)]
struct LongPointers {
    accepted: usize,
    /// Structures that are missed where no pointer of 4 bytes leads.
    far: usize,
    /// Of these, the ones in the last 16 places that there are.
    near_last: usize,
}

impl LongPointers {
    fn add(&mut self, answer: ReadAnswer) {
        let is_missed = answer.number == PAST_END;
        self.accepted += usize::from(answer.pointer_size == 8);
        self.far += usize::from(is_missed && answer.place >= 1 << 32);
        self.near_last += usize::from(is_missed && answer.place >= u64::MAX - 15);
    }
}

/// Asserts that every outcome is there often enough to be worth running, and
/// that each kind of damage comes to several.
fn assert_varied(tally: &Tally<Kind>) {
    assert!((12_000..45_000).contains(&tally.all(0)));
    let sum: usize = NUMBERS.iter().map(|&number| tally.all(number)).sum();
    assert_eq!(sum + tally.all(0), FILE_CASES);
    for number in NUMBERS {
        assert!(tally.all(number) >= 50, "{number}: {}", tally.all(number));
    }
    for kind in [
        Kind::Byte,
        Kind::Word,
        Kind::Cut,
        Kind::Shifted,
        Kind::Fields,
    ] {
        let seen = NUMBERS.iter().filter(|&&number| tally.of(kind, number) > 0);
        assert!(seen.count() >= 2, "{kind:?}");
        assert!(tally.of(kind, 0) > 0, "{kind:?}");
    }
    for number in NUMBERS.into_iter().filter(|&number| number != 11) {
        assert!(tally.of(Kind::Fault, number) >= 20, "{number}");
    }
    assert!(tally.of(Kind::Words, 0) >= 50);
}

/// A case with a file that was made by hand.
fn file_case(file: Vec<u8>) -> FileCase {
    FileCase {
        kind: Kind::Byte,
        file,
        table: vec![0xA5A5_A5A5; TABLE_LENGTH],
        known: None,
    }
}

/// The example in both widths of pointers.
fn examples() -> [Vec<u8>; 2] {
    [EXAMPLE.to_vec(), version_11::example()]
}

/// An example with each of its bytes set to every value: these refusals are met,
/// and no others.
fn assert_bytes_agree(example: &[u8], refusals: &[u64]) {
    let mut tally = Tally::default();
    for place in 0..example.len() {
        for value in 0..=255 {
            let file = with_byte(example, place, value);
            let (answer, _) = read_case(&file_case(file));
            tally.add(Kind::Byte, answer.number);
        }
    }
    tally.report("every byte");
    assert!(tally.all(0) >= 1_000 && tally.all(1) >= 1_000);
    let met = |number: &u64| tally.all(*number) > 0;
    let met: Vec<u64> = NUMBERS.into_iter().filter(met).collect();
    assert_eq!(met, refusals);
}

/// Only in version 11 there is a precision to refuse.
#[test]
fn every_byte_of_the_example_agrees() {
    assert_bytes_agree(&EXAMPLE, &[1, 2, 3, 4, 5, 6, 7, 9, 10, 12, 13]);
    let long = [1, 2, 3, 4, 5, 6, 7, 9, 10, 12, 13, 25];
    assert_bytes_agree(&version_11::example(), &long);
}

/// Every word of the example, at every place, set to each limit and its
/// neighbours.
#[test]
fn every_word_of_the_example_agrees() {
    for example in examples() {
        let length = example.len() as u32;
        let mut values = vec![149, 150, 151, 16_383, 16_384, 16_385, 1 << 31, u32::MAX];
        values.extend(0..30);
        values.extend(length - 5..=length + 1);
        for place in 0..example.len() - 3 {
            for &value in &values {
                read_case(&file_case(with(&example, &[(place, value)])));
            }
        }
    }
}

/// Eight bytes of the example in version 11, at every place, set to numbers
/// about the file's end, about the first of more than 32 bits and about the
/// last of all, and to places with another high word.
#[test]
fn every_pointer_of_the_example_agrees() {
    let example = version_11::example();
    let length = example.len() as u64;
    let about = |middle: u64| (middle - 9)..=middle.saturating_add(9);
    let limits = [length, 1 << 32, 1 << 63, u64::MAX];
    let mut values: Vec<u64> = limits.into_iter().flat_map(about).collect();
    values.extend((0..length).map(|place| 1 << 32 | place));
    for place in 0..example.len() - 7 {
        for &value in &values {
            let file = version_11::with_pointers(&example, &[(place, value)]);
            read_case(&file_case(file));
        }
    }
}

/// Random valid files cut at every length: only the whole file is surely
/// accepted, and the rest end in a 1 or in a tile pointer beyond the end.
#[test]
fn every_cut_agrees() {
    let mut random = Random::new(CUTS_SEED);
    let mut tally = Tally::default();
    for _ in 0..100 {
        let built = random_file(&mut random);
        let (answer, _) = read_case(&file_case(built.bytes.clone()));
        assert_eq!(answer, built.known.answer);
        for length in 0..built.bytes.len().min(2_000) {
            let (answer, _) = read_case(&file_case(built.bytes[..length].to_vec()));
            assert!([0, 1, 13].contains(&answer.number), "{length}: {answer:?}");
            tally.add(Kind::Cut, answer.number);
        }
    }
    tally.report("every cut");
    assert!(tally.all(1) >= 5_000 && tally.all(13) >= 500);
}

/// An example in front of so many zero bytes that the file has the length.
fn padded(example: &[u8], length: usize) -> Vec<u8> {
    // Memory that is zero from the start is not touched before it is used.
    let mut file = vec![0; length];
    file[..example.len()].copy_from_slice(example);
    file
}

/// Reads with all, which agree, into a table of so many numbers.
fn read_long(file: &[u8], table_length: usize) -> (ReadAnswer, Vec<u32>) {
    let (answer, [table]) = agree(
        || format!("{} bytes", file.len()),
        |by| {
            let mut table = Guarded::new(&vec![0xA5A5_A5A5; table_length]);
            ((by.read)(file, table.lent()), [table])
        },
    );
    (answer, table)
}

/// A file is too long from one byte above the limit on; a table of the wrong
/// length is found first, and both leave the table as lent.
fn assert_limited(example: &[u8], size: usize, row: Row) {
    let pointer = row[8] as usize;
    let mut file = padded(example, FILE_LIMIT + 1);
    let (answer, table) = read_long(&file, TABLE_LENGTH);
    assert_eq!(answer, ReadAnswer::refused(FILE_TOO_LONG, 0));
    assert!(table == [0xA5A5_A5A5; TABLE_LENGTH]);
    let (answer, table) = read_long(&file, TABLE_LENGTH - 1);
    assert_eq!(answer, ReadAnswer::refused(11, 0));
    assert!(table == [0xA5A5_A5A5; TABLE_LENGTH - 1]);
    file.truncate(FILE_LIMIT);
    // The only tile may be the last byte.
    set_number(&mut file, pointer, size, FILE_LIMIT as u64 - 1);
    let (answer, table) = read_long(&file, TABLE_LENGTH);
    assert_eq!((answer.number, answer.place, answer.rows), (0, 0, 1));
    assert_eq!(difference(&table, &table_of(&[row])), None);
    set_number(&mut file, pointer, size, FILE_LIMIT as u64);
    let (answer, table) = read_long(&file, TABLE_LENGTH);
    assert_eq!(answer, ReadAnswer::refused(13, pointer as u64));
    assert!(table == [0; TABLE_LENGTH]);
    file[0] = 0;
    let (answer, _) = read_long(&file, TABLE_LENGTH);
    assert_eq!(answer, ReadAnswer::refused(NOT_XCF, 0));
}

#[test]
fn file_limit() {
    let row = [3, 1, 1, 1, 2, 67, 1, 69, 133, 1, 255, 1, 0, 0, 0, 0];
    assert_limited(&EXAMPLE, 4, row);
    let row = [3, 1, 1, 1, 2, 83, 1, 85, 161, 1, 255, 1, 0, 0, 0, 0];
    assert_limited(&version_11::example(), 8, row);
}

/// An example with the largest sides, which stand at the places: 65,536 tile
/// pointers, of which the first or the last may be bad.
fn assert_largest(example: &[u8], size: usize, sides: [usize; 8]) {
    let first = sides[7] + 4;
    let mut file = with(&example[..first], &sides.map(|place| (place, 16_384)));
    file.extend(pointers(size, 1..=65_536));
    file.extend(pointers(size, [0]));
    let (answer, table) = read_case(&file_case(file.clone()));
    assert_eq!((answer.number, answer.width, answer.rows), (0, 16_384, 1));
    assert_eq!(table[8..10], [first as u32, 65_536]);
    for (index, value) in [(0, 0), (65_535, 65_535), (65_536, 1)] {
        let (mut file, place) = (file.clone(), first + size * index);
        set_number(&mut file, place, size, value);
        let (answer, _) = read_case(&file_case(file));
        assert_eq!(answer, ReadAnswer::refused(13, place as u64));
    }
}

#[test]
fn largest_sides() {
    assert_largest(&EXAMPLE, 4, [14, 18, 55, 59, 105, 109, 125, 129]);
    let sides = [14, 18, 71, 75, 125, 129, 153, 157];
    assert_largest(&version_11::example(), 8, sides);
}

/// Where structures lie that all drawables share: one layer; one channel, which
/// is also the layer's mask; the hierarchy and the level that both have.
struct Shared {
    version: u32,
    layer: u64,
    channel: u64,
    hierarchy: u64,
    level: u64,
}

const SHORT: Shared = Shared {
    version: 0,
    layer: 362,
    channel: 394,
    hierarchy: 418,
    level: 438,
};

const LONG: Shared = Shared {
    version: 11,
    layer: 694,
    channel: 734,
    hierarchy: 762,
    level: 790,
};

impl Shared {
    /// A grey file with the largest sides that has all pointers lead to the
    /// layer and to the channel.
    fn file(&self) -> Vec<u8> {
        let (size, sides) = (pointer_size(self.version), words(&[16_384; 2]));
        let to = |place: u64| pointers(size, [place]);
        let precision: &[u32] = if size == 8 { &[150] } else { &[] };
        let image = [
            &b"gimp xcf "[..],
            &tag(self.version),
            &sides,
            &words(&[1]),
            &words(precision),
            &words(&END),
            &to(self.layer).repeat(48),
            &to(0),
            &to(self.channel).repeat(32),
            &to(0),
        ];
        let (layer, channel) = (words(&[2, 0, 0, 0]), words(&[0, 0, 0]));
        let (below, above) = (to(self.hierarchy), to(self.level));
        [
            &image.concat(),
            &[&sides[..], &layer, &below, &to(self.channel)].concat(),
            &[&sides[..], &channel, &below].concat(),
            &[&sides[..], &words(&[1]), &above, &to(0)].concat(),
            &[&sides[..], &pointers(size, 1..=65_536), &to(0)].concat(),
        ]
        .map(|piece| piece.as_slice())
        .concat()
    }

    /// The rows: 48 layers, each with a mask, and 32 channels.
    fn rows(&self) -> Vec<Row> {
        let row = |kind, name: u64, flags, owner| {
            let [place, first] = [name, self.level + 8].map(|place| place as u32);
            [
                kind, 16_384, 16_384, 1, 2, place, 0, place, first, 65_536, 255, flags, 0, 0, 0,
                owner,
            ]
        };
        let layer = |owner| row(1, self.layer + 16, 3, owner);
        let channel = |kind, owner| row(kind, self.channel + 12, 0, owner);
        let layers = (0..96).step_by(2);
        let layers = layers.flat_map(|owner| [layer(owner), channel(2, owner)]);
        layers.chain((96..128).map(|own| channel(3, own))).collect()
    }
}

/// The most rows with the most tiles in a small file: all 128 walk over the
/// same 65,536 tile pointers.
#[test]
fn most_sharing() {
    for (shared, length) in [(SHORT, 262_594), (LONG, 525_094)] {
        let case = file_case(shared.file());
        assert_eq!(case.file.len(), length);
        let (answer, table) = read_case(&case);
        let image = [16_384, 16_384, 1, shared.version.into(), 0];
        let known = Known {
            answer: ReadAnswer::accepted(image, 128),
            rows: shared.rows(),
        };
        assert_known(&case, &known, answer, &table);
    }
}
