//! Files that GIMP wrote, made by `data/make`: all that GIMP says of them, and
//! every pixel that it reads in them, is what the implementations give. Those
//! of its files that the rules do not take are refused where they say.

use std::fs;
use std::path::PathBuf;

use xcf_compare::answer::{
    BAD_CONTENT, BAD_PRECISION, FLOATING_SELECTION, LIST_LIMIT, ListAnswer, OVERRUN, ReadAnswer,
    Row, TABLE_LENGTH, UNKNOWN_VERSION,
};
use xcf_compare::decode::Drawable;
use xcf_compare::gimp::{
    Facts, INDEXED_FILE, MODERN_INDEXED_FILE, data_folder, with_old_map_length, without_places,
};
use xcf_compare::guard::{Guarded, difference};
use xcf_compare::implementation::agree;
use xcf_compare::list::{TEXT_LENGTH, list};
use xcf_compare::{library, report};

/// The chart with a tile overwritten, and which tile of which row that is.
const DAMAGED: &str = "chart-damaged";
const DAMAGED_ROW: usize = 0;
const DAMAGED_TILE: usize = 5;

/// The files that are compared, and the drawables in them.
const FILES: usize = 12;
const DRAWABLES: usize = 73;

fn data_file(name: &str) -> PathBuf {
    data_folder().join(name)
}

/// What reading a file gives and leaves in the table: all must agree.
fn read(name: &str, file: &[u8]) -> (ReadAnswer, Vec<u32>) {
    let (answer, [table]) = agree(
        || name.to_string(),
        |by| {
            let mut table = Guarded::new(&[0xA5A5_A5A5; TABLE_LENGTH]);
            ((by.read)(file, table.lent()), [table])
        },
    );
    (answer, table)
}

/// A file of the folder, and what reading it gives.
struct Sample {
    name: String,
    file: Vec<u8>,
    answer: ReadAnswer,
    table: Vec<u32>,
}

impl Sample {
    /// Reads a file of the folder.
    fn new(name: &str) -> Self {
        let file = fs::read(data_file(&format!("{name}.xcf"))).unwrap();
        Sample::of(name, file)
    }

    /// Reads the bytes of a file: all must accept it and agree.
    fn of(name: &str, file: Vec<u8>) -> Self {
        let (answer, table) = read(name, &file);
        assert_eq!((answer.number, answer.place), (0, 0), "{name}");
        Sample {
            name: name.to_string(),
            file,
            answer,
            table,
        }
    }

    /// All files of the folder but the damaged one.
    fn all() -> Vec<Self> {
        let names = names_with(".xcf");
        let names = names.iter().filter(|name| *name != DAMAGED);
        names.map(|name| Sample::new(name)).collect()
    }

    fn facts(&self) -> Facts {
        Facts::read(&data_file(&format!("{}.txt", self.name)))
    }

    fn rows(&self) -> &[Row] {
        &self.table.as_chunks().0[..self.answer.rows as usize]
    }

    /// Decodes a row: all must agree, and count as many marked tiles; gives the
    /// pixels and marks.
    fn decode(&self, row: usize) -> (Vec<u8>, Vec<u8>) {
        let drawable = self.drawable(row);
        let lengths = [drawable.pixels_length(), drawable.tile_count()];
        let (file, table, [compression, size]) = (&self.file, &self.table, self.answer.form());
        let what = || format!("{}, row {row}", self.name);
        let (answer, [pixels, marks]) = agree(what, |by| {
            let mut lent = lengths.map(|length| Guarded::new(&vec![0xA5; length]));
            let [pixels, marks] = lent.each_mut().map(Guarded::lent);
            let answer = (by.decode)(file, table, row as u32, compression, size, pixels, marks);
            (answer, lent)
        });
        let counted = library::count_marked(file, table, row as u32, compression, size);
        assert_eq!(counted, answer, "{}", what());
        (pixels, marks)
    }

    fn drawable(&self, row: usize) -> Drawable {
        let [compression, size] = self.answer.form();
        Drawable::new(&self.file, &self.table, row as u32, compression, size).expect("a row")
    }

    /// The pixels of a row as GIMP reads them.
    fn exported(&self, row: usize) -> Vec<u8> {
        fs::read(data_file(&format!("{}.{row}.raw", self.name))).unwrap()
    }
}

/// The names of the folder's files that end so, without that end, sorted.
fn names_with(end: &str) -> Vec<String> {
    names_in(data_folder(), end)
}

/// The same of any folder.
fn names_in(folder: PathBuf, end: &str) -> Vec<String> {
    let entries = fs::read_dir(folder).unwrap();
    let names = entries.map(|entry| entry.unwrap().file_name().into_string().unwrap());
    let mut names: Vec<String> = names
        .filter_map(|name| name.strip_suffix(end).map(str::to_string))
        .collect();
    names.sort();
    names
}

/// Everything that GIMP says of a file, and nothing else, is in the table.
#[test]
fn rows_are_as_gimp_says() {
    let mut compared = 0;
    for sample in Sample::all() {
        let (facts, answer) = (sample.facts(), sample.answer);
        let canvas = [facts.width, facts.height, facts.base].map(u64::from);
        assert_eq!([answer.width, answer.height, answer.base], canvas);
        assert_eq!(sample.rows().len(), facts.drawables.len());
        for (row, drawable) in sample.rows().iter().zip(&facts.drawables) {
            assert_eq!(without_places(row), drawable.row, "{}", sample.name);
            let name = &sample.file[row[5] as usize..][..row[6] as usize];
            assert_eq!(name, drawable.name.as_bytes(), "{}", sample.name);
            compared += 1;
        }
    }
    report(&format!("GIMP's files: {compared} rows as GIMP says"));
    assert_eq!(compared, DRAWABLES);
}

/// No tile is marked, and each pixel is the one that GIMP reads.
#[test]
fn pixels_are_as_gimp_reads_them() {
    let (mut compared, mut bytes) = (0, 0);
    for sample in Sample::all() {
        for row in 0..sample.rows().len() {
            let (pixels, marks) = sample.decode(row);
            let what = format!("{}, row {row}", sample.name);
            assert!(marks.iter().all(|&mark| mark == 0), "{what}");
            let exported = sample.exported(row);
            assert_eq!(difference(&pixels, &exported), None, "{what}");
            compared += 1;
            bytes += pixels.len();
        }
    }
    report(&format!(
        "GIMP's files: {compared} drawables, {bytes} bytes of pixels as GIMP reads them"
    ));
    assert_eq!(compared, DRAWABLES);
}

/// The numbers of a listing's line for a row: its fields but the kind, and how
/// many tiles are marked.
fn listed_numbers(line: &str) -> (Vec<u32>, u32) {
    let words: Vec<&str> = line.split(' ').collect();
    let [_, _, fields @ .., "bad", marked] = words.as_slice() else {
        panic!("{line}");
    };
    let number = |word: &&str| word.parse().expect("a number");
    (fields.iter().map(number).collect(), number(marked))
}

/// The library's listing of a file; it leaves the table as the reader does.
fn listing(sample: &Sample) -> String {
    listing_of(&sample.name, &sample.file, &sample.answer, &sample.table)
}

/// The library's listing of bytes for which the reader gives this answer and
/// table.
fn listing_of(name: &str, file: &[u8], read: &ReadAnswer, read_table: &[u32]) -> String {
    let (mut table, mut text) = (vec![0xA5; TABLE_LENGTH], vec![0xA5; TEXT_LENGTH]);
    let answer = library::list(file, &mut table, &mut text);
    let ListAnswer { refused, at, .. } = answer;
    assert_eq!((answer.number, answer.place), (0, 0), "{name}");
    assert_eq!((refused, at), (read.number, read.place), "{name}");
    assert_eq!(difference(&table, read_table), None, "{name}");
    text.truncate(answer.length as usize);
    String::from_utf8(text).expect("ASCII")
}

/// The listing has the rows of the table, in order, and marks what is marked.
fn assert_listed(sample: &Sample, marked: impl Fn(usize) -> u32) {
    let listing = listing(sample);
    let lines: Vec<&str> = listing.lines().collect();
    let (canvas, lines) = lines.split_first().expect("a canvas");
    let ReadAnswer { width, height, .. } = sample.answer;
    assert!(canvas.starts_with(&format!("canvas {width} {height} base ")));
    assert!(canvas.ends_with(&format!(" rows {}", lines.len())));
    assert_eq!(lines.len(), sample.rows().len(), "{}", sample.name);
    let kinds = ["", "layer", "mask", "channel"];
    for (row, (line, fields)) in lines.iter().zip(sample.rows()).enumerate() {
        let start = format!("{row} {} ", kinds[fields[0] as usize]);
        assert!(line.starts_with(&start), "{}: {line}", sample.name);
        assert_eq!(listed_numbers(line), (fields[1..].to_vec(), marked(row)));
    }
}

#[test]
fn listings_are_the_tables() {
    let samples = Sample::all();
    assert_eq!(samples.len(), FILES);
    for sample in &samples {
        assert_listed(sample, |_| 0);
        if sample.file.len() <= LIST_LIMIT {
            assert_eq!(listing(sample), list(&sample.file), "{}", sample.name);
        }
    }
}

/// The damaged chart reads as the chart does; the overwritten tile alone is
/// marked, and its pixels alone are others: zeros.
#[test]
fn one_tile_is_damaged() {
    let (chart, damaged) = (Sample::new("chart"), Sample::new(DAMAGED));
    assert_eq!(damaged.answer, chart.answer);
    assert_eq!(difference(&damaged.table, &chart.table), None);
    assert_listed(&damaged, |row| u32::from(row == DAMAGED_ROW));
    for row in 0..chart.rows().len() {
        let drawable = chart.drawable(row);
        let (pixels, marks) = damaged.decode(row);
        let exported = chart.exported(row);
        for (tile, &mark) in marks.iter().enumerate() {
            let [given, whole] = [&pixels, &exported].map(|bytes| drawable.cut_out(tile, bytes));
            if (row, tile) == (DAMAGED_ROW, DAMAGED_TILE) {
                assert_eq!(u64::from(mark), OVERRUN);
                assert!(given.iter().all(|&byte| byte == 0));
                assert_ne!(given, whole, "the tile shows a part of the trace");
            } else {
                assert_eq!(mark, 0, "row {row}, tile {tile}");
                assert_eq!(difference(&given, &whole), None, "row {row}, tile {tile}");
            }
        }
    }
}

/// With the length word that old releases gave to colour maps, an indexed file
/// reads and decodes as before.
#[test]
fn old_length_of_a_colour_map() {
    for name in [INDEXED_FILE, MODERN_INDEXED_FILE] {
        let whole = Sample::new(name);
        let old = Sample::of(&format!("{name}, old"), with_old_map_length(&whole.file));
        assert_eq!(old.answer, whole.answer);
        assert_eq!(difference(&old.table, &whole.table), None);
        assert_listed(&old, |_| 0);
        for row in 0..whole.rows().len() {
            let decoded = old.decode(row);
            assert!(decoded == whole.decode(row), "{name}, row {row}");
            assert_eq!(difference(&decoded.0, &whole.exported(row)), None);
        }
    }
}

/// A file of GIMP's that is refused, in the folder's folder of these.
struct Refused {
    name: &'static str,
    number: u64,
    place: usize,
    /// What stands at that place.
    fault: &'static [u8],
    /// What makes it a file that is accepted, if so much does.
    repair: Option<&'static [u8]>,
}

const REFUSED: [Refused; 5] = [
    // eight-bit linear; 150 is taken
    Refused {
        name: "linear",
        number: BAD_PRECISION,
        place: 26,
        fault: &[0, 0, 0, 100],
        repair: Some(&[0, 0, 0, 150]),
    },
    // the compression of zlib
    Refused {
        name: "zlib",
        number: BAD_CONTENT,
        place: 38,
        fault: &[2],
        repair: Some(&[1]),
    },
    // a type 5 of 8 bytes; an unknown type is skipped by that length
    Refused {
        name: "floating",
        number: FLOATING_SELECTION,
        place: 365,
        fault: &[0, 0, 0, 5, 0, 0, 0, 8],
        repair: Some(&[0, 0, 0, 99]),
    },
    // 16 bits for a colour, and a mode older than version 10
    Refused {
        name: "sixteen",
        number: UNKNOWN_VERSION,
        place: 9,
        fault: b"v012\0",
        repair: None,
    },
    Refused {
        name: "overlay",
        number: UNKNOWN_VERSION,
        place: 9,
        fault: b"v009\0",
        repair: None,
    },
];

impl Refused {
    fn folder() -> PathBuf {
        data_file("refused")
    }

    fn file(&self) -> Vec<u8> {
        fs::read(Refused::folder().join(format!("{}.xcf", self.name))).unwrap()
    }

    /// The file with other bytes where its fault is.
    fn repaired(&self, repair: &[u8]) -> Sample {
        let mut file = self.file();
        file[self.place..][..repair.len()].copy_from_slice(repair);
        Sample::of(&format!("{}, repaired", self.name), file)
    }
}

/// Files that GIMP writes and the rules do not take are refused at the fault;
/// those of version 11 have no other.
#[test]
fn refused_at_the_fault() {
    for refused in &REFUSED {
        let (name, number, place) = (refused.name, refused.number, refused.place);
        let file = refused.file();
        assert!(file[place..].starts_with(refused.fault), "{name}");
        let (answer, table) = read(name, &file);
        assert_eq!(answer, ReadAnswer::refused(number, place as u64), "{name}");
        assert_eq!(difference(&table, &[0; TABLE_LENGTH]), None, "{name}");
        let line = format!("refused {number} at {place}\n");
        assert_eq!(listing_of(name, &file, &answer, &table), line);
        assert_eq!(list(&file), line, "{name}");
        if let Some(repair) = refused.repair {
            assert_eq!(refused.repaired(repair).answer.version, 11, "{name}");
        }
    }
    assert_eq!(names_in(Refused::folder(), ".xcf").len(), REFUSED.len());
}

/// Which values a field or an answer has, in order and each once.
fn values<T: Ord>(all: impl Iterator<Item = T>) -> Vec<T> {
    let mut values: Vec<T> = all.collect();
    values.sort();
    values.dedup();
    values
}

/// The folder has nothing that is not compared, and what it is there for in
/// files of either size of pointers.
#[test]
fn samples_are_varied() {
    let samples = Sample::all();
    assert_eq!(samples.len(), FILES);
    assert_eq!(names_with(".txt").len(), FILES);
    assert_eq!(names_with(".raw").len(), DRAWABLES);
    let (modern, old): (Vec<Sample>, Vec<Sample>) = samples
        .into_iter()
        .partition(|sample| sample.name.starts_with("modern"));
    assert_varied(&old, &[0, 1, 2, 3], 4, 20);
    assert_varied(&modern, &[11], 8, 6);
}

/// Files of these versions have this size of pointers and this number of modes;
/// all bases, kinds and types of layers, each flag set and not set, and offsets
/// to both sides are among them.
fn assert_varied(samples: &[Sample], versions: &[u64], pointer_size: u64, modes: usize) {
    let answers = || samples.iter().map(|sample| sample.answer);
    assert_eq!(values(answers().map(|answer| answer.version)), versions);
    assert_eq!(
        values(answers().map(|answer| answer.pointer_size)),
        [pointer_size]
    );
    assert_eq!(values(answers().map(|answer| answer.base)), [0, 1, 2]);
    let rows = || samples.iter().flat_map(Sample::rows);
    assert_eq!(values(rows().map(|row| row[0])), [1, 2, 3]);
    let layers = || rows().filter(|row| row[0] == 1);
    assert_eq!(values(layers().map(|row| row[4])), [0, 1, 2, 3, 4, 5]);
    assert_eq!(values(rows().map(|row| row[14])).len(), modes);
    for flag in [1, 2, 4, 8, 16] {
        let set = rows().filter(|row| row[11] & flag != 0).count();
        assert!((1..rows().count()).contains(&set), "flag {flag}: {set}");
    }
    for field in [12, 13] {
        assert!(rows().any(|row| (row[field] as i32) < 0));
        assert!(rows().any(|row| (row[field] as i32) > 0));
    }
    assert!(values(rows().map(|row| row[10])).len() >= 5);
}
