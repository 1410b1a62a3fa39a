//! `xcf check`.

use std::ffi::OsStr;

use super::{counted, for_each_file, some_files};
use crate::arguments::Arguments;
use crate::escape::printable_path;
use crate::fault::{Cause, Fault, Status};
use crate::image::Image;
use crate::output::print;
use crate::progress::Progress;
use crate::row::field;

pub fn run(arguments: Arguments) -> Result<Status, Fault> {
    for_each_file(&some_files(arguments)?, |file| {
        let (verdict, status) = match Counts::of_file(file) {
            Ok(counts) => counts.verdict(file),
            // A refusal is what was asked for, not a failure.
            Err(fault) if fault.cause == Cause::Refused => (fault.sentence, Status::Refused),
            Err(fault) => return Err(fault),
        };
        print(format!("{verdict}\n").as_bytes())?;
        Ok(status)
    })
}

/// What an accepted file holds.
#[derive(Default)]
struct Counts {
    rows: u64,
    tiles: u64,
    marked: u64,
}

impl Counts {
    fn of_file(file: &OsStr) -> Result<Self, Fault> {
        let progress = Progress::start();
        let image = Image::open(file, &progress)?;
        let mut counts = Counts::default();
        for (number, row) in image.rows() {
            progress.say(image.decoding_words(number));
            counts.rows += 1;
            counts.tiles += u64::from(row[field::TILES]);
            counts.marked += image.count_marked(number)?;
        }
        Ok(counts)
    }

    fn verdict(&self, file: &OsStr) -> (String, Status) {
        let (rows, tiles) = (counted(self.rows, "row"), counted(self.tiles, "tile"));
        let (tiles, status) = match self.marked {
            0 => (format!("{tiles}, none marked"), Status::Fine),
            marked => (format!("{marked} of {tiles} marked"), Status::Refused),
        };
        let file = printable_path(file);
        (format!("{file}: accepted, {rows}, {tiles}"), status)
    }
}
