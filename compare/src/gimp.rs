//! What GIMP makes of a file, as `data/export.scm` has it written down.

use std::path::{Path, PathBuf};
use std::{env, fs};

use crate::answer::Row;
use crate::cases::Shape;
use crate::files::block::word_at;
use crate::files::drawable::tile_count;
use crate::files::laid::with;
use crate::files::version;

/// The folder with the files that GIMP wrote.
pub fn data_folder() -> PathBuf {
    Path::new(env!("CARGO_MANIFEST_DIR")).join("data")
}

/// The indexed file of version 1 in the folder, and that of version 11. Their
/// lists of properties start with the colour map.
pub const INDEXED_FILE: &str = "indexed";
pub const MODERN_INDEXED_FILE: &str = "modern-indexed";

/// Where the image's list of properties starts: in a version with a precision,
/// behind it.
fn list_place(file: &[u8]) -> usize {
    let version = version::of_tag(&file[9..14]).expect("a version");
    if version::has_precision(version) {
        30
    } else {
        26
    }
}

/// An indexed file with the length word that old releases gave to colour maps:
/// a byte for each colour, not three, and the count's word.
pub fn with_old_map_length(indexed: &[u8]) -> Vec<u8> {
    let place = list_place(indexed);
    let [kind, length, count] = [0, 4, 8].map(|offset| word_at(indexed, place + offset));
    assert_eq!([kind, length], [1, 3 * count + 4]);
    with(indexed, &[(place + 4, count + 4)])
}

/// What GIMP says of an image.
#[derive(Clone, Debug, PartialEq, Eq)]
pub struct Facts {
    pub width: u32,
    pub height: u32,
    pub base: u32,
    pub drawables: Vec<Drawable>,
}

/// What GIMP says of a layer, mask or channel.
#[derive(Clone, Debug, PartialEq, Eq)]
pub struct Drawable {
    /// The row that a reader gives, but for its places in the file, which are
    /// 0.
    pub row: Row,
    pub name: String,
}

impl Facts {
    /// Reads the text that is written for a file: a line for the canvas, one
    /// for each drawable, and an end.
    pub fn read(path: &Path) -> Self {
        let text = fs::read_to_string(path).unwrap_or_else(|error| panic!("{path:?}: {error}"));
        let lines: Vec<&str> = text.lines().collect();
        let [canvas, drawables @ .., "end"] = lines.as_slice() else {
            panic!("{path:?} has no end");
        };
        let words: Vec<&str> = canvas.split(' ').collect();
        let ["canvas", width, height, "base", base] = words.as_slice() else {
            panic!("{path:?} has no canvas");
        };
        let [width, height, base] = [width, height, base].map(|word| number(word) as u32);
        let drawables = drawables.iter().enumerate();
        Facts {
            width,
            height,
            base,
            drawables: drawables
                .map(|(row, line)| Drawable::parse(line, base, row as u32))
                .collect(),
        }
    }
}

impl Drawable {
    fn parse(line: &str, base: u32, row: u32) -> Self {
        let (words, name) = line.split_once(" name ").expect("a name");
        let words: Vec<&str> = words.split(' ').collect();
        let (pairs, _) = words.as_chunks();
        let word = |wanted| {
            let pair = pairs.iter().find(|[name, _]| *name == wanted);
            pair.unwrap_or_else(|| panic!("{wanted} in {line}"))[1]
        };
        let fact = |wanted| number(word(wanted)) as i32 as u32;
        assert_eq!(fact("row"), row, "{line}");
        let kind = kind(word("kind"));
        let shape = Shape::new(fact("width"), fact("height"), fact("bands"));
        let flags = ["visible", "apply", "selection", "active", "group"].map(fact);
        Drawable {
            row: [
                kind,
                shape.width,
                shape.height,
                shape.depth,
                type_of(kind, base, shape.depth),
                0,
                name.len() as u32,
                0,
                0,
                tile_count(shape) as u32,
                opacity(number(word("opacity"))),
                (0..).zip(flags).map(|(bit, flag)| flag << bit).sum(),
                fact("x"),
                fact("y"),
                fact("mode"),
                if kind == 2 { row - 1 } else { row },
            ],
            name: name.to_string(),
        }
    }
}

fn number(word: &str) -> f64 {
    word.parse()
        .unwrap_or_else(|_| panic!("{word} is no number"))
}

fn kind(word: &str) -> u32 {
    let kinds = ["layer", "mask", "channel"];
    let index = kinds.iter().position(|kind| *kind == word);
    1 + index.unwrap_or_else(|| panic!("{word} is no kind")) as u32
}

/// A layer's type; that of the others is fixed.
fn type_of(kind: u32, base: u32, bands: u32) -> u32 {
    match kind {
        1 => 2 * base + u32::from(bands.is_multiple_of(2)),
        _ => 2,
    }
}

/// The byte that GIMP writes for a percentage. A byte of a file becomes the
/// percentage that it is written for.
fn opacity(percentage: f64) -> u32 {
    (percentage / 100.0 * 255.999) as u32
}

/// The row without its places in the file.
pub fn without_places(row: &Row) -> Row {
    let mut row = *row;
    for place in [5, 7, 8] {
        row[place] = 0;
    }
    row
}

/// A drawable's pixels, as they are written down in hexadecimal digits.
pub fn exported_pixels(path: &Path) -> Vec<u8> {
    let text = fs::read_to_string(path).unwrap_or_else(|error| panic!("{path:?}: {error}"));
    let digits: Vec<u32> = text
        .chars()
        .filter(|digit| !digit.is_whitespace())
        .map(|digit| digit.to_digit(16).expect("a digit"))
        .collect();
    let (pairs, rest) = digits.as_chunks();
    assert!(rest.is_empty(), "half a byte");
    pairs
        .iter()
        .map(|[high, low]| (16 * high + low) as u8)
        .collect()
}
