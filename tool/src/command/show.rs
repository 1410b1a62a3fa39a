//! `xcf show`.

use super::{counted, exactly, say_marked};
use crate::arguments::Arguments;
use crate::escape::{printable_path, quoted};
use crate::fault::{Fault, Status};
use crate::image::Image;
use crate::output::print;
use crate::progress::Progress;
use crate::row::{Row, field};

const BASES: [&str; 3] = ["RGB", "greyscale", "indexed"];
const COMPRESSIONS: [&str; 2] = ["plain tiles", "encoded tiles"];
const TITLES: [&str; 11] = [
    "row", "kind", "size", "type", "opacity", "mode", "offset", "flags", "tiles", "marked", "name",
];

/// The columns of numbers, which end below each other.
const NUMBERS: [&str; 5] = ["row", "opacity", "mode", "tiles", "marked"];

/// A line of the table.
type Line = [String; TITLES.len()];

/// How many tiles of a row are marked, and the marks where one is.
struct Marks {
    marked: u64,
    marks: Vec<u8>,
}

pub fn run(arguments: Arguments) -> Result<Status, Fault> {
    let [file] = exactly(arguments.plain()?, "FILE")?;
    let progress = Progress::start();
    let image = Image::open(&file, &progress)?;
    let marks = marks_of_rows(&image, &progress)?;
    drop(progress);

    let mut text = title(&image);
    text += &table(&image, &marks);
    for ((number, row), marks) in image.rows().zip(&marks) {
        text += &map(&image, number, &row, marks);
    }
    let printed = print(text.as_bytes());
    // Marks are said also where printing stopped on the way.
    let said = image.rows().zip(&marks);
    let said = said.map(|((number, _), marks)| say_marked(&image, number, marks.marked));
    let status = said.max().unwrap_or(Status::Fine);
    printed.map(|()| status)
}

fn marks_of_rows(image: &Image, progress: &Progress) -> Result<Vec<Marks>, Fault> {
    let mut rows = Vec::new();
    for (number, _) in image.rows() {
        progress.say(image.decoding_words(number));
        let marked = image.count_marked(number)?;
        // Counting needs no room for the pixels; a map does.
        let marks = match marked {
            0 => Vec::new(),
            _ => image.decode(number)?.marks,
        };
        rows.push(Marks { marked, marks });
    }
    Ok(rows)
}

fn title(image: &Image) -> String {
    let answer = &image.answer;
    format!(
        "{}: {} by {}, {}, version {}, {}, {}\n",
        printable_path(&image.path),
        answer.width,
        answer.height,
        BASES[answer.base as usize],
        answer.version,
        COMPRESSIONS[answer.compression as usize],
        counted(answer.rows, "row"),
    )
}

/// A line for each row, in columns; nothing where there is no row.
fn table(image: &Image, marks: &[Marks]) -> String {
    if marks.is_empty() {
        return String::new();
    }
    let mut lines = vec![TITLES.map(str::to_string)];
    for ((number, row), marks) in image.rows().zip(marks) {
        lines.push(columns(image, number, &row, marks.marked));
    }
    let width = |column: usize| lines.iter().map(|line| line[column].chars().count()).max();
    let widths: Vec<usize> = (0..TITLES.len()).filter_map(width).collect();
    lines.iter().map(|line| padded(line, &widths)).collect()
}

/// The cells of a line, each as wide as its column.
fn padded(line: &Line, widths: &[usize]) -> String {
    let cells = line.iter().zip(widths).zip(TITLES);
    let cells = cells.map(|((cell, width), title)| match NUMBERS.contains(&title) {
        true => format!("{cell:>width$}"),
        false => format!("{cell:width$}"),
    });
    format!("{}\n", cells.collect::<Vec<_>>().join("  ").trim_end())
}

fn columns(image: &Image, number: u32, row: &Row, marked: u64) -> Line {
    let flags = row.flag_words().join(", ");
    let flags = if flags.is_empty() {
        "-".to_string()
    } else {
        flags
    };
    // Offsets are stored as two's complement.
    let (x, y) = (row[field::OFFSET_X] as i32, row[field::OFFSET_Y] as i32);
    [
        number.to_string(),
        row.kind_word().to_string(),
        format!("{}x{}", row[field::WIDTH], row[field::HEIGHT]),
        row.type_words().to_string(),
        row[field::OPACITY].to_string(),
        row[field::MODE].to_string(),
        format!("{x},{y}"),
        flags,
        row[field::TILES].to_string(),
        marked.to_string(),
        quoted(image.name(row)),
    ]
}

/// The grid of a row with marked tiles.
fn map(image: &Image, number: u32, row: &Row, marks: &Marks) -> String {
    if marks.marked == 0 {
        return String::new();
    }
    let words = image.marked_words(number, marks.marked);
    let mut text = format!("{words} (. good, # marked)\n");
    for line in marks.marks.chunks(row.columns()) {
        let signs = line.iter().map(|mark| if *mark == 0 { '.' } else { '#' });
        text += &format!("  {}\n", signs.collect::<String>());
    }
    text
}
