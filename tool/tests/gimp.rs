//! Every command on every file that GIMP made, in compare/data: what `xcf list`
//! says of a file decides what the others show, and the pixels are those that
//! GIMP has in it.

mod common;

use std::fs;
use std::path::{Path, PathBuf};

use common::folder::names_in;
use common::listing::{Listing, Row};
use common::text::{COLUMNS, narrow_lines};
use common::{Folder, Pam, TILE};

const BASES: [&str; 3] = ["RGB", "greyscale", "indexed"];
const COMPRESSIONS: [&str; 2] = ["plain tiles", "encoded tiles"];
const TYPES: [&str; 6] = [
    "RGB",
    "RGB alpha",
    "grey",
    "grey alpha",
    "indexed",
    "indexed alpha",
];
const FLAGS: [&str; 5] = ["visible", "apply mask", "selection", "active", "group"];
const BANDS: [&str; 6] = [
    "red green blue",
    "red green blue alpha",
    "grey",
    "grey alpha",
    "index",
    "index alpha",
];

/// The greatest mode that is written; newer versions have others.
const WRITTEN_MODES: usize = 21;

/// The files that are refused, and what `xcf list` prints of each: a floating
/// selection, linear precision, two of versions that are not read, and zlib.
const REFUSED: [(&str, &str); 5] = [
    ("floating.xcf", "refused 16 at 365\n"),
    ("linear.xcf", "refused 25 at 26\n"),
    ("overlay.xcf", "refused 3 at 9\n"),
    ("sixteen.xcf", "refused 3 at 9\n"),
    ("zlib.xcf", "refused 7 at 38\n"),
];

fn data() -> PathBuf {
    Path::new(env!("CARGO_MANIFEST_DIR")).join("../compare/data")
}

/// A number of things.
fn counted(number: usize, thing: &str) -> String {
    match number {
        1 => format!("1 {thing}"),
        _ => format!("{number} {thing}s"),
    }
}

/// A file of GIMP's, as the command lists it.
struct Sample {
    folder: Folder,
    /// Its name without the ending.
    stem: String,
    bytes: Vec<u8>,
    listing: Listing,
}

#[test]
fn every_command_runs_on_every_file() {
    let names = names_in(&data());
    let stems = names.iter().filter_map(|name| name.strip_suffix(".xcf"));
    let mut count = 0;
    for stem in stems {
        println!("{stem}.xcf");
        let sample = Sample::new(stem);
        sample.is_checked();
        let marks: Vec<Vec<usize>> = (0..sample.listing.rows.len())
            .map(|row| sample.is_extracted(row))
            .collect();
        sample.is_shown(&marks);
        sample.is_packed();
        count += 1;
    }
    assert!(
        count >= 6,
        "only {count} files of GIMP's in {}",
        data().display()
    );
}

#[test]
fn files_that_are_not_read_are_refused() {
    let refused = data().join("refused");
    assert_eq!(names_in(&refused), REFUSED.map(|(file, _)| file));
    for (file, listing) in REFUSED {
        let bytes = fs::read(refused.join(file)).expect("a file of the folder");
        let folder = Folder::with(file, &bytes);
        folder.run(["list", file]).is(1, listing, "");
        let said = format!("{file}: {}: ", listing.trim_end());
        let checked = folder.run(["check", file]);
        assert!(checked.text().starts_with(&said), "{checked:?}");
        folder.run(["show", file]).fails(1, &[&said]);
    }
}

impl Sample {
    fn new(stem: &str) -> Self {
        let file = format!("{stem}.xcf");
        let bytes = fs::read(data().join(&file)).expect("a file of the folder");
        let folder = Folder::with(&file, &bytes);
        let listed = folder.run(["list", &file]);
        let listing = Listing::parse(listed.text());
        assert_eq!(listing.bad() > 0, stem.ends_with("-damaged"), "{file}");
        let sample = Sample {
            folder,
            stem: stem.to_string(),
            bytes,
            listing,
        };
        assert_eq!(
            (listed.status, listed.stderr.as_str()),
            (sample.status(), "")
        );
        sample
    }

    fn file(&self) -> String {
        format!("{}.xcf", self.stem)
    }

    /// The exit status of a command that sees every tile.
    fn status(&self) -> i32 {
        i32::from(self.listing.bad() > 0)
    }

    fn is_checked(&self) {
        let rows = counted(self.listing.rows.len(), "row");
        let tiles = counted(self.listing.tiles(), "tile");
        let tiles = match self.listing.bad() {
            0 => format!("{tiles}, none marked"),
            bad => format!("{bad} of {tiles} marked"),
        };
        let line = format!("{}: accepted, {rows}, {tiles}\n", self.file());
        let checked = self.folder.run(["check", &self.file()]);
        checked.is(self.status(), &line, "");
    }

    /// Holds a row's PAM file to GIMP's pixels, which are zero in the marked
    /// tiles; gives these.
    fn is_extracted(&self, number: usize) -> Vec<usize> {
        let row = &self.listing.rows[number];
        let out = format!("{number}.pam");
        let words = ["extract", &self.file(), &number.to_string(), &out];
        let (status, told) = match row.bad {
            0 => (0, String::new()),
            _ => (1, format!("xcf: {}: {}\n", self.file(), self.told(number))),
        };
        self.folder.run(words).is(status, "", &told);
        let written = self.folder.get(&out);
        let raw = format!("{}.{number}.raw", self.stem.trim_end_matches("-damaged"));
        let pixels = fs::read(data().join(&raw)).expect("the pixels that GIMP has");
        let gimps = Pam::new(row.width(), row.height(), BANDS[row.fields[4]], pixels);
        let marked = marked_tiles(row, &written);
        assert!(
            written == gimps.with_marks(&marked).bytes(),
            "{} {raw}",
            self.file()
        );
        marked
    }

    /// What is said of a row with marked tiles.
    fn told(&self, number: usize) -> String {
        let row = &self.listing.rows[number];
        let (name, bad, tiles) = (self.name(row), row.bad, row.fields[9]);
        format!("row {number} \"{name}\": {bad} of {tiles} tiles marked")
    }

    /// The row's name; GIMP's names here are printable.
    fn name(&self, row: &Row) -> &str {
        let name = &self.bytes[row.fields[5]..][..row.fields[6]];
        std::str::from_utf8(name).expect("a name in UTF-8")
    }

    fn is_shown(&self, marks: &[Vec<usize>]) {
        let listing = &self.listing;
        let rows = listing.rows.iter().enumerate();
        let head = format!(
            "{}: {} by {}, {}, version {}, {}, {}",
            self.file(),
            listing.width,
            listing.height,
            BASES[listing.base],
            listing.version,
            COMPRESSIONS[listing.compression],
            counted(listing.rows.len(), "row"),
        );
        let mut lines = vec![head, COLUMNS.to_string()];
        lines.extend(rows.clone().map(|(number, row)| self.line(number, row)));
        let mut told = String::new();
        for (number, row) in rows.filter(|(_, row)| row.bad > 0) {
            lines.push(format!("{} (. good, # marked)", self.told(number)));
            lines.extend(map(row, &marks[number]));
            told += &format!("xcf: {}: {}\n", self.file(), self.told(number));
        }
        let shown = self.folder.run(["show", &self.file()]);
        assert_eq!(narrow_lines(shown.text()), lines);
        assert_eq!((shown.status, shown.stderr), (self.status(), told));
    }

    /// A row's line, with one space between columns.
    fn line(&self, number: usize, row: &Row) -> String {
        let fields = &row.fields;
        let flags = FLAGS.iter().enumerate();
        let flags: Vec<&str> = flags
            .filter(|(bit, _)| fields[11] >> bit & 1 == 1)
            .map(|(_, word)| *word)
            .collect();
        let flags = match flags.as_slice() {
            [] => "-".to_string(),
            flags => flags.join(", "),
        };
        let (x, y) = row.offset();
        format!(
            "{number} {} {}x{} {} {} {} {x},{y} {flags} {} {} \"{}\"",
            row.kind,
            row.width(),
            row.height(),
            TYPES[fields[4]],
            fields[10],
            fields[14],
            fields[9],
            row.bad,
            self.name(row)
        )
    }
}

impl Sample {
    /// Packs the extracted rows, and holds the new file to the old one's
    /// numbers. Palettes, groups and newer modes are not written: an index
    /// becomes a grey, and such a mode normal.
    fn is_packed(&self) {
        let folder = &self.folder;
        if self.listing.bad() > 0 {
            let refused = folder.run(self.words(&[]));
            refused.fails(1, &["has marked pixels"]);
        }
        folder.run(self.words(&["--marks", "holes"])).is(0, "", "");
        let packed = folder.listing("packed.xcf");
        let sides = (self.listing.width, self.listing.height);
        assert_eq!((packed.width, packed.height), sides);
        assert_eq!(packed.bad(), 0);
        let kept = self.listing.rows.iter().filter(|row| row.bad > 0).count();
        assert_eq!(packed.rows.len(), self.listing.rows.len() + kept);
        for (number, (row, new)) in self.listing.rows.iter().zip(packed.rows).enumerate() {
            let mut fields = row.fields;
            fields[4] -= if fields[4] > 3 { 2 } else { 0 };
            fields[11] &= 15;
            fields[14] = written_mode(fields[14]);
            for place in [5, 7, 8] {
                fields[place] = new.fields[place];
            }
            assert_eq!((&new.kind, new.fields), (&row.kind, fields), "row {number}");
            let (old, new) = (
                self.pixels(&self.file(), number),
                self.pixels("packed.xcf", number),
            );
            assert!(old == new, "{} row {number}", self.file());
        }
    }

    /// How the extracted rows are packed; `of_marked` is said of those with
    /// marked tiles.
    fn words(&self, of_marked: &[&str]) -> Vec<String> {
        let Listing { width, height, .. } = self.listing;
        let head = format!("pack packed.xcf --canvas {width}x{height}");
        let mut words: Vec<String> = head.split(' ').map(str::to_string).collect();
        for (number, row) in self.listing.rows.iter().enumerate() {
            let name = self.name(row).to_string();
            words.extend([format!("--{}", row.kind), name, format!("{number}.pam")]);
            words.extend(self.said(row));
            let marked = of_marked.iter().filter(|_| row.bad > 0);
            words.extend(marked.map(|word| word.to_string()));
        }
        words
    }

    /// What a row's numbers say of its item.
    fn said(&self, row: &Row) -> Vec<String> {
        let fields = &row.fields;
        let mut said = format!("--opacity {}", fields[10]);
        if row.kind == "layer" {
            let (x, y) = row.offset();
            let mode = written_mode(fields[14]);
            said += &format!(" --offset {x},{y} --mode {mode}");
        }
        let applied = self.listing.rows[fields[15]].fields[11] & 2 != 0;
        let flags = [
            (fields[11] & 1 != 0, " --visible"),
            (fields[11] & 1 == 0, " --hidden"),
            (fields[11] & 4 != 0, " --selection"),
            (fields[11] & 8 != 0, " --active"),
            (row.kind == "mask" && !applied, " --unapplied"),
        ];
        said.extend(flags.iter().filter(|(set, _)| *set).map(|(_, word)| *word));
        said.split(' ').map(str::to_string).collect()
    }

    /// The pixels of a row of a file.
    fn pixels(&self, file: &str, number: usize) -> Vec<u8> {
        let number = number.to_string();
        let extracted = self
            .folder
            .run(["extract", "--no-marks", file, &number, "-"]);
        let end = extracted
            .stdout
            .windows(7)
            .position(|bytes| bytes == b"ENDHDR\n");
        extracted.stdout[end.expect("a header") + 7..].to_vec()
    }
}

/// The mode that a layer is packed with.
fn written_mode(mode: usize) -> usize {
    match mode {
        0..=WRITTEN_MODES => mode,
        _ => 0,
    }
}

/// The tiles whose first pixel is marked in a PAM file with a band of marks.
fn marked_tiles(row: &Row, file: &[u8]) -> Vec<usize> {
    let bands = row.fields[3] + 1;
    let header = file.len() - row.width() * row.height() * bands;
    let columns = row.width().div_ceil(TILE);
    let is_marked = |tile: &usize| {
        let (x, y) = (tile % columns * TILE, tile / columns * TILE);
        file[header + (y * row.width() + x + 1) * bands - 1] == 0
    };
    let marked: Vec<usize> = (0..row.fields[9]).filter(is_marked).collect();
    assert_eq!(marked.len(), row.bad);
    marked
}

/// A line of . and # for each line of tiles, behind two spaces.
fn map(row: &Row, marked: &[usize]) -> Vec<String> {
    let columns = row.width().div_ceil(TILE);
    let tiles: Vec<usize> = (0..row.fields[9]).collect();
    let sign = |tile: &usize| if marked.contains(tile) { '#' } else { '.' };
    let lines = tiles.chunks(columns);
    let lines = lines.map(|line| line.iter().map(sign).collect::<String>());
    lines.map(|line| format!("  {line}")).collect()
}
