//! What can go wrong, as a sentence and an exit status.

use std::ffi::OsStr;
use std::fmt::Display;
use std::io::{self, ErrorKind, Write};
use std::process::ExitCode;

use crate::escape::printable_path;

/// How a command ends; the greater one counts where several files are given.
#[derive(Clone, Copy, Debug, PartialEq, Eq, PartialOrd, Ord)]
pub enum Status {
    Fine = 0,
    /// A file is refused, or a tile is marked.
    Refused = 1,
    /// Wrong usage, or the system failed.
    Failed = 2,
}

impl From<Status> for ExitCode {
    fn from(status: Status) -> Self {
        ExitCode::from(status as u8)
    }
}

/// Why a command ends early.
#[derive(Clone, Copy, Debug, PartialEq, Eq)]
pub enum Cause {
    /// A file is refused for what it holds.
    Refused,
    /// The command's words are wrong.
    Usage,
    /// The system fails.
    System,
    /// Nothing more can be printed.
    Output,
    /// The command's help is asked for.
    Help,
}

/// A cause, in a sentence.
#[derive(Debug)]
pub struct Fault {
    pub cause: Cause,
    pub sentence: String,
}

impl Fault {
    pub fn refused(sentence: impl Into<String>) -> Self {
        Fault::new(Cause::Refused, sentence)
    }

    pub fn usage(sentence: impl Into<String>) -> Self {
        Fault::new(Cause::Usage, sentence)
    }

    pub fn system(sentence: impl Into<String>) -> Self {
        Fault::new(Cause::System, sentence)
    }

    pub fn help() -> Self {
        Fault::new(Cause::Help, "help is asked for")
    }

    fn new(cause: Cause, sentence: impl Into<String>) -> Self {
        Fault {
            cause,
            sentence: sentence.into(),
        }
    }

    /// An error of the system about standard output.
    pub fn output(error: &io::Error) -> Self {
        Fault::new(Cause::Output, format!("standard output: {}", cause(error)))
    }

    /// An error of the system about a file.
    pub fn of_file(path: &OsStr, error: &io::Error) -> Self {
        Fault::system(format!("{}: {}", printable_path(path), cause(error)))
    }

    /// Says the sentence on standard error; how the command ends.
    pub fn say(&self) -> Status {
        say(&self.sentence);
        match self.cause {
            Cause::Refused => Status::Refused,
            Cause::Usage | Cause::System | Cause::Output | Cause::Help => Status::Failed,
        }
    }
}

/// A line on standard error; where that is closed there is nobody to tell.
pub fn say(sentence: impl Display) {
    let _ = writeln!(io::stderr(), "xcf: {sentence}");
}

/// An error of the system in plain words.
fn cause(error: &io::Error) -> String {
    let words = match error.kind() {
        ErrorKind::NotFound => "no such file or folder",
        ErrorKind::PermissionDenied => "no permission",
        ErrorKind::IsADirectory => "is a folder, not a file",
        ErrorKind::NotADirectory => "a part of the path is not a folder",
        ErrorKind::StorageFull => "the disk is full",
        ErrorKind::QuotaExceeded => "the disk quota is used up",
        ErrorKind::FileTooLarge => "the file is too large for this system",
        ErrorKind::BrokenPipe => "the pipe was closed before all was written",
        ErrorKind::ReadOnlyFilesystem => "the file system is read-only",
        ErrorKind::OutOfMemory => "there is not enough memory",
        _ => return error.to_string(),
    };
    words.to_string()
}
