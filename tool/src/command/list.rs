//! `xcf list`.

use std::ffi::OsStr;

use super::{for_each_file, some_files};
use crate::arguments::Arguments;
use crate::escape::printable_path;
use crate::fault::{Fault, Status};
use crate::image::read_bytes;
use crate::library::{self, TABLE_LENGTH, TEXT_LENGTH};
use crate::output::print;
use crate::progress::Progress;

pub fn run(arguments: Arguments) -> Result<Status, Fault> {
    let files = some_files(arguments)?;
    for_each_file(&files, |file| {
        let (listing, status) = listing(file)?;
        let mut text = match files.len() {
            1 => Vec::new(),
            _ => format!("{}:\n", printable_path(file)).into_bytes(),
        };
        text.extend(listing);
        print(&text)?;
        Ok(status)
    })
}

fn listing(file: &OsStr) -> Result<(Vec<u8>, Status), Fault> {
    let progress = Progress::start();
    let bytes = read_bytes(file, &progress)?;
    progress.say(format!("decoding {}", printable_path(file)));
    let mut text = vec![0; TEXT_LENGTH];
    let answer = library::list(&bytes, &mut [0; TABLE_LENGTH], &mut text);
    text.truncate(answer.length as usize);
    let status = match (answer.number, answer.refused, answer.marked) {
        (0, 0, 0) => Status::Fine,
        _ => Status::Refused,
    };
    Ok((text, status))
}
