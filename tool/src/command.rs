//! The commands.

mod check;
mod extract;
mod list;
mod pack;
mod show;

use std::ffi::{OsStr, OsString};
use std::io::{self, Write};

use crate::arguments::Arguments;
use crate::escape::printable_path;
use crate::fault::{Cause, Fault, Status, say};
use crate::help;
use crate::image::Image;
use crate::output::print;

struct Command {
    name: &'static str,
    help: &'static str,
    run: fn(Arguments) -> Result<Status, Fault>,
}

const COMMANDS: [Command; 5] = [
    Command {
        name: "list",
        help: help::LIST,
        run: list::run,
    },
    Command {
        name: "show",
        help: help::SHOW,
        run: show::run,
    },
    Command {
        name: "check",
        help: help::CHECK,
        run: check::run,
    },
    Command {
        name: "extract",
        help: help::EXTRACT,
        run: extract::run,
    },
    Command {
        name: "pack",
        help: help::PACK,
        run: pack::run,
    },
];

/// Runs the command of the words, and says on standard error what went wrong.
pub fn run(words: Vec<OsString>) -> Status {
    let Some((word, rest)) = words.split_first() else {
        let _ = io::stderr().write_all(help::OVERVIEW.as_bytes());
        return Status::Failed;
    };
    dispatch(word, rest).unwrap_or_else(|fault| fault.say())
}

fn dispatch(word: &OsStr, rest: &[OsString]) -> Result<Status, Fault> {
    match word.to_str() {
        Some("--help" | "-h" | "help") => print_help(rest.first()),
        Some("--version" | "-V") => printed(&format!("xcf {}\n", env!("CARGO_PKG_VERSION"))),
        _ => named(word)?.run(rest),
    }
}

impl Command {
    fn run(&self, words: &[OsString]) -> Result<Status, Fault> {
        let outcome = (self.run)(Arguments::new(words.to_vec()));
        let Err(Fault { cause, sentence }) = outcome else {
            return outcome;
        };
        match cause {
            Cause::Help => printed(self.help),
            Cause::Usage => {
                let see = format!("{sentence}; see xcf help {}", self.name);
                Err(Fault::usage(see))
            }
            _ => Err(Fault { cause, sentence }),
        }
    }
}

fn named(word: &OsStr) -> Result<&'static Command, Fault> {
    let command = COMMANDS.iter().find(|command| word == command.name);
    let unknown = || {
        let word = printable_path(word);
        Fault::usage(format!("there is no command {word}; see xcf help"))
    };
    command.ok_or_else(unknown)
}

fn print_help(word: Option<&OsString>) -> Result<Status, Fault> {
    match word {
        None => printed(help::OVERVIEW),
        Some(word) => printed(named(word)?.help),
    }
}

fn printed(text: &str) -> Result<Status, Fault> {
    print(text.as_bytes())?;
    Ok(Status::Fine)
}

/// The words of a command that takes so many; `names` says which.
fn exactly<const N: usize>(words: Vec<OsString>, names: &str) -> Result<[OsString; N], Fault> {
    let given = counted(words.len() as u64, "word");
    let wrong = |_| Fault::usage(format!("{given} where {names} is due"));
    words.try_into().map_err(wrong)
}

/// The words of a command that takes one file or more.
fn some_files(arguments: Arguments) -> Result<Vec<OsString>, Fault> {
    let files = arguments.plain()?;
    match files.is_empty() {
        true => Err(Fault::usage("no FILE is given")),
        false => Ok(files),
    }
}

/// Says on standard error that a row has marked tiles, if it has.
fn say_marked(image: &Image, row: u32, marked: u64) -> Status {
    if marked == 0 {
        return Status::Fine;
    }
    let words = image.marked_words(row, marked);
    say(format!("{}: {words}", printable_path(&image.path)));
    Status::Refused
}

/// Does the same for each file, for as long as something can be printed; a file
/// that fails does not stop the others.
fn for_each_file(
    files: &[OsString],
    mut run: impl FnMut(&OsStr) -> Result<Status, Fault>,
) -> Result<Status, Fault> {
    let mut status = Status::Fine;
    for file in files {
        status = status.max(match run(file) {
            Ok(status) => status,
            Err(fault) if fault.cause == Cause::Output => return Err(fault),
            Err(fault) => fault.say(),
        });
    }
    Ok(status)
}

/// A number of things.
fn counted(number: u64, thing: &str) -> String {
    match number {
        1 => format!("1 {thing}"),
        _ => format!("{number} {thing}s"),
    }
}
