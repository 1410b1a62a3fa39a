//! `xcf extract`.

use super::{exactly, say_marked};
use crate::arguments::{Arguments, Word, number, other};
use crate::fault::{Fault, Status};
use crate::image::Image;
use crate::output::Target;
use crate::pam;
use crate::progress::Progress;

pub fn run(mut arguments: Arguments) -> Result<Status, Fault> {
    let (mut marks, mut force, mut words) = (true, false, Vec::new());
    while let Some(word) = arguments.word() {
        match word {
            Word::Option(option) if option == "--no-marks" => marks = false,
            Word::Option(option) if option == "--force" => force = true,
            Word::Option(option) => return Err(other(&option)),
            Word::Plain(word) => words.push(word),
        }
    }
    let [file, row, out] = exactly(words, "FILE ROW OUT.pam")?;
    // No file has a row of more than 32 bits.
    let row = u32::try_from(number::<u64>(&row, "ROW")?).unwrap_or(u32::MAX);
    let target = Target::new(&out, &[&file], force)?;

    let progress = Progress::start();
    let image = Image::open(&file, &progress)?;
    progress.say(image.decoding_words(row));
    let drawable = image.decode(row)?;
    progress.say(format!("writing row {row}"));
    let written = target.write(|to| pam::write(to, &image.row(row), &drawable, marks));
    drop(progress);
    // Marks are said also where writing stopped on the way.
    let status = say_marked(&image, row, drawable.marked);
    written.map(|()| status)
}
