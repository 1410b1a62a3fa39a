//! `xcf pack`: the items of the command as rows, names and pixels for the
//! library's writer.

mod item;
mod kept;
mod picture;

use std::ffi::OsString;

use crate::arguments::{Arguments, Word, other, pair};
use crate::escape::printable_path;
use crate::fault::{Fault, Status};
use crate::output::Target;
use crate::progress::Progress;
use item::Item;
use picture::Picture;

/// The words of the command.
#[derive(Default)]
struct Request {
    out: Option<OsString>,
    force: bool,
    canvas: Option<(u32, u32)>,
    base: Option<u32>,
    items: Vec<Item>,
}

pub fn run(arguments: Arguments) -> Result<Status, Fault> {
    let request = Request::parse(arguments)?;
    let missing = || Fault::usage("OUT.xcf is missing");
    let out = request.out.as_ref().ok_or_else(missing)?;
    let inputs: Vec<_> = request
        .items
        .iter()
        .map(|item| item.path.as_os_str())
        .collect();
    let target = Target::new(out, &inputs, request.force)?;

    let progress = Progress::start();
    let mut picture = Picture::default();
    for item in &request.items {
        picture.add(item, &progress)?;
    }
    let canvas = request.canvas.or(picture.first_size());
    let canvas = canvas.ok_or_else(|| Fault::usage("no item: --canvas says the size"))?;
    picture.add_kept(canvas)?;
    let base = request.base.unwrap_or(picture.first_base());
    progress.say("encoding".to_string());
    let file = picture.encode(canvas, base, out)?;
    target.write(|to| to.write_all(&file))?;
    Ok(Status::Fine)
}

impl Request {
    fn parse(mut arguments: Arguments) -> Result<Self, Fault> {
        let mut request = Request::default();
        while let Some(word) = arguments.word() {
            match word {
                Word::Option(option) => request.option(&option, &mut arguments)?,
                Word::Plain(word) if request.out.is_none() => request.out = Some(word),
                Word::Plain(word) => {
                    let word = printable_path(&word);
                    return Err(Fault::usage(format!("one word too many: {word}")));
                }
            }
        }
        Ok(request)
    }

    fn option(&mut self, option: &str, arguments: &mut Arguments) -> Result<(), Fault> {
        match option {
            "--force" => self.force = true,
            "--canvas" => self.canvas = Some(pair(&arguments.value(option)?, 'x', option)?),
            "--base" => self.base = Some(base(&arguments.value(option)?)?),
            _ => match Item::kind(option) {
                Some(kind) => self.items.push(Item::parse(kind, option, arguments)?),
                None => match self.items.last_mut() {
                    Some(item) => item.option(option, arguments)?,
                    None => return Err(other(option)),
                },
            },
        }
        Ok(())
    }
}

fn base(word: &OsString) -> Result<u32, Fault> {
    match word.to_str() {
        Some("rgb") => Ok(0),
        Some("grey" | "gray") => Ok(1),
        _ => Err(Fault::usage("--base is rgb or grey")),
    }
}
