//! A file as the library reads it.

use std::ffi::{OsStr, OsString};

use crate::escape::{printable_path, quoted};
use crate::fault::Fault;
use crate::input::read_file;
use crate::library::{self, DecodeAnswer, FILE_LIMIT, ROW_LENGTH, ReadAnswer, TABLE_LENGTH};
use crate::memory::zeros;
use crate::progress::Progress;
use crate::refusal::Refusal;
use crate::row::{Row, field};

/// A file is read up to one byte more than is accepted, by which a longer one
/// is seen, also one that grows while it is read.
pub fn read_bytes(path: &OsStr, progress: &Progress) -> Result<Vec<u8>, Fault> {
    read_file(path, FILE_LIMIT + 1, progress)
}

/// A file that was accepted.
pub struct Image {
    pub path: OsString,
    pub answer: ReadAnswer,
    file: Vec<u8>,
    table: Vec<u32>,
}

/// The pixels of a row, and a mark for each of its tiles.
pub struct Drawable {
    pub pixels: Vec<u8>,
    pub marks: Vec<u8>,
    pub marked: u64,
}

impl Image {
    pub fn open(path: &OsStr, progress: &Progress) -> Result<Self, Fault> {
        let file = read_bytes(path, progress)?;
        let mut table = vec![0; TABLE_LENGTH];
        let answer = library::read(&file, &mut table);
        accepted(path, answer.number, answer.place)?;
        Ok(Image {
            path: path.to_owned(),
            answer,
            file,
            table,
        })
    }

    /// The rows that are used.
    pub fn rows(&self) -> impl Iterator<Item = (u32, Row)> {
        (0..).zip(self.row_numbers().take(self.answer.rows as usize))
    }

    fn row_numbers(&self) -> impl Iterator<Item = Row> {
        let (rows, _) = self.table.as_chunks::<ROW_LENGTH>();
        rows.iter().map(|numbers| Row(*numbers))
    }

    /// A row by its number; one that the table does not have is unused.
    pub fn row(&self, number: u32) -> Row {
        self.row_numbers().nth(number as usize).unwrap_or_default()
    }

    /// A row's name.
    pub fn name(&self, row: &Row) -> &[u8] {
        let start = row[field::NAME_PLACE] as usize;
        let end = start + row[field::NAME_LENGTH] as usize;
        self.file.get(start..end).unwrap_or_default()
    }

    /// How many tiles of a row are marked.
    pub fn count_marked(&self, number: u32) -> Result<u64, Fault> {
        let (compression, pointer_size) = self.told();
        let (file, table) = (&self.file, &self.table);
        let answer = library::count_marked(file, table, number, compression, pointer_size);
        self.decoded(answer)
    }

    pub fn decode(&self, number: u32) -> Result<Drawable, Fault> {
        let row = self.row(number);
        let mut pixels = zeros(row.pixels_length())?;
        let mut marks = zeros(row[field::TILES] as usize)?;
        let (compression, pointer_size) = self.told();
        let answer = library::decode(
            &self.file,
            &self.table,
            number,
            compression,
            pointer_size,
            &mut pixels,
            &mut marks,
        );
        let marked = self.decoded(answer)?;
        Ok(Drawable {
            pixels,
            marks,
            marked,
        })
    }

    /// What the reader answered that the decoder is told: the compression and
    /// the size of pointers.
    fn told(&self) -> (u32, u32) {
        let ReadAnswer {
            compression,
            pointer_size,
            ..
        } = self.answer;
        (compression as u32, pointer_size as u32)
    }

    /// How many tiles are marked, unless the row is refused.
    fn decoded(&self, answer: DecodeAnswer) -> Result<u64, Fault> {
        accepted(&self.path, answer.number, answer.place)?;
        Ok(answer.marked)
    }

    /// What is being done while a row is decoded.
    pub fn decoding_words(&self, number: u32) -> String {
        let (path, rows) = (printable_path(&self.path), self.answer.rows);
        format!("decoding {path}: row {number} of {rows}")
    }

    /// A row with marked tiles, in words.
    pub fn marked_words(&self, number: u32, marked: u64) -> String {
        let row = self.row(number);
        let (name, tiles) = (quoted(self.name(&row)), row[field::TILES]);
        format!("row {number} {name}: {marked} of {tiles} tiles marked")
    }
}

/// A fault where the library refuses something of a file.
fn accepted(path: &OsStr, number: u64, place: u64) -> Result<(), Fault> {
    let refused = |refusal| Fault::refused(format!("{}: {refusal}", printable_path(path)));
    Refusal::of(number, place).map_err(refused)
}
