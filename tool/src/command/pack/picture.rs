//! Rows, names and pixels, as the library's writer takes them.

use std::ffi::OsStr;
use std::mem;
use std::os::unix::ffi::OsStrExt;

use super::item::Item;
use super::kept::Kept;
use crate::escape::{printable_path, quoted};
use crate::fault::Fault;
use crate::input::read_file;
use crate::library::{self, FILE_LIMIT, OUTPUT_TOO_SHORT, ROW_LENGTH, TABLE_LENGTH, UNUSABLE_ROW};
use crate::memory::{make_room, zeros};
use crate::pam::{self, GOOD, Pam};
use crate::progress::Progress;
use crate::refusal::Refusal;
use crate::row::{GREY, Kind, Row, field, flag};

/// The most of a PAM file that is read: more than any drawable has.
const PAM_LIMIT: usize = 2 * FILE_LIMIT;

#[derive(Default)]
pub struct Picture {
    rows: Vec<Row>,
    names: Vec<u8>,
    pixels: Vec<u8>,
    /// Bands of marks that are kept as channels, behind all other rows.
    kept: Vec<Kept>,
}

impl Picture {
    /// Adds an item: its row, its name and the pixels of its file.
    pub fn add(&mut self, item: &Item, progress: &Progress) -> Result<(), Fault> {
        let bytes = read_file(&item.path, PAM_LIMIT, progress)?;
        let refused = |words| Fault::refused(format!("{}: {words}", printable_path(&item.path)));
        let pam = pam::parse(&bytes).map_err(refused)?;
        let has_marks = match item.mark_band {
            Some(said) => said,
            None => pam.has_marks().map_err(refused)?,
        };
        let depth = match has_marks {
            true => pam.depth_before_marks().map_err(refused)?,
            false => pam.bands,
        };
        let row = self.row(item, Row::drawable(item.kind, pam.width, pam.height, depth));
        match has_marks {
            true => self.keep_marks(item, row, &pam).map_err(refused)?,
            false if item.marks.is_some() => return Err(refused("has no band of marks".into())),
            false => {}
        }
        make_room(&mut self.pixels, row.pixels_length())?;
        pam.put_bands(depth, &mut self.pixels);
        self.add_row(row, item.name.as_bytes());
        Ok(())
    }

    /// Keeps a band of marks where the item says so; else it must have none.
    fn keep_marks(&mut self, item: &Item, row: Row, pam: &Pam) -> Result<(), String> {
        match &item.marks {
            Some(name) => {
                let (name, band) = (name.as_bytes().to_vec(), pam.last_band().collect());
                self.kept.push(Kept { row, name, band });
                Ok(())
            }
            None if pam.last_band().all(|mark| mark == GOOD) => Ok(()),
            None => {
                let words = "has marked pixels; --marks NAME keeps its band of marks as a channel";
                Err(words.to_string())
            }
        }
    }

    /// Adds the bands of marks that are kept, as channels of the canvas's size.
    pub fn add_kept(&mut self, (width, height): (u32, u32)) -> Result<(), Fault> {
        for kept in mem::take(&mut self.kept) {
            let refused = |words| Fault::refused(format!("{}: {words}", quoted(&kept.name)));
            let mut row = Row::drawable(Kind::Channel, width, height, 1);
            if row.pixels_length() > FILE_LIMIT {
                return Err(refused("the canvas is too large"));
            }
            make_room(&mut self.pixels, row.pixels_length())?;
            let start = self.pixels.len();
            self.pixels.resize(start + row.pixels_length(), GOOD);
            kept.put(&row, &mut self.pixels[start..]).map_err(refused)?;
            row[field::OWNER] = self.rows.len() as u32;
            self.add_row(row, &kept.name);
        }
        Ok(())
    }

    /// Adds a row with its name, of which a flag tells whether it is UTF-8.
    fn add_row(&mut self, mut row: Row, name: &[u8]) {
        row[field::NAME_PLACE] = self.names.len() as u32;
        row[field::NAME_LENGTH] = name.len() as u32;
        if str::from_utf8(name).is_err() {
            row[field::FLAGS] |= flag::NOT_UTF8;
        }
        self.names.extend_from_slice(name);
        self.rows.push(row);
    }

    /// What an item says of its row. A mask belongs to the layer before it.
    fn row(&mut self, item: &Item, mut row: Row) -> Row {
        row[field::OPACITY] = item.opacity;
        row[field::FLAGS] = item.flags();
        row[field::MODE] = item.mode;
        row[field::OWNER] = self.rows.len() as u32;
        let layer = |row: &&mut Row| row[field::KIND] == Kind::Layer as u32;
        if let (Kind::Mask, Some(layer)) = (item.kind, self.rows.last_mut().filter(layer)) {
            layer[field::FLAGS] |= if item.unapplied { 0 } else { flag::APPLY_MASK };
            for same in [field::OFFSET_X, field::OFFSET_Y, field::OWNER] {
                row[same] = layer[same];
            }
        }
        if let Some((x, y)) = item.offset {
            // Offsets are stored as two's complement.
            row[field::OFFSET_X] = x as u32;
            row[field::OFFSET_Y] = y as u32;
        }
        row
    }

    /// The size of the first row.
    pub fn first_size(&self) -> Option<(u32, u32)> {
        let row = self.rows.first()?;
        Some((row[field::WIDTH], row[field::HEIGHT]))
    }

    /// The base of the first row's type; grey where there is no row.
    pub fn first_base(&self) -> u32 {
        self.rows.first().map_or(GREY, |row| row[field::TYPE]) / 2
    }

    /// The file, as the library writes it.
    pub fn encode(&self, canvas: (u32, u32), base: u32, out: &OsStr) -> Result<Vec<u8>, Fault> {
        let refused = |words| Fault::refused(format!("{}: {words}", printable_path(out)));
        let mut table = self.rows.iter().flat_map(|row| row.0).collect::<Vec<_>>();
        if table.len() > TABLE_LENGTH {
            let most = TABLE_LENGTH / ROW_LENGTH;
            return Err(refused(format!(
                "more than {most} layers, masks and channels"
            )));
        }
        table.resize(TABLE_LENGTH, 0);
        let file = self.write(canvas, base, &table)?;
        file.map_err(|refusal| refused(self.words(refusal)))
    }

    /// Lends more and more output until the file fits or is too long.
    fn write(
        &self,
        (width, height): (u32, u32),
        base: u32,
        table: &[u32],
    ) -> Result<Result<Vec<u8>, Refusal>, Fault> {
        let mut room = self.pixels.len() / 16 * 17 + (1 << 20);
        loop {
            room = room.min(FILE_LIMIT);
            let mut output = zeros(room)?;
            let (names, pixels) = (&self.names, &self.pixels);
            let answer = library::write(width, height, base, table, names, pixels, &mut output);
            if answer.number == OUTPUT_TOO_SHORT && room < FILE_LIMIT {
                room *= 2;
                continue;
            }
            output.truncate(answer.length as usize);
            return Ok(Refusal::of(answer.number, answer.place).map(|()| output));
        }
    }

    /// A refusal of the writer, and the row that it is about.
    fn words(&self, refusal: Refusal) -> String {
        let row = self.rows.get(refusal.place as usize);
        match row.filter(|_| refusal.number == UNUSABLE_ROW) {
            Some(row) => format!("{refusal}: the {} {}", row.kind_word(), self.name(row)),
            None => refusal.to_string(),
        }
    }

    fn name(&self, row: &Row) -> String {
        let start = row[field::NAME_PLACE] as usize;
        let end = start + row[field::NAME_LENGTH] as usize;
        quoted(&self.names[start..end])
    }
}
