//! Where results go: a file, or standard output.

use std::ffi::OsStr;
use std::fs::{self, Metadata};
use std::io::{self, BufWriter, Write};
use std::os::unix::fs::MetadataExt;
use std::path::Path;

use crate::draft::Draft;
use crate::escape::printable_path;
use crate::fault::Fault;

/// Prints a text.
pub fn print(text: &[u8]) -> Result<(), Fault> {
    print_all(|stdout| stdout.write_all(text))
}

fn print_all(put: impl FnOnce(&mut dyn Write) -> io::Result<()>) -> Result<(), Fault> {
    let printed = put_all(io::stdout().lock(), put);
    printed.map_err(|error| Fault::output(&error))
}

fn put_all(to: impl Write, put: impl FnOnce(&mut dyn Write) -> io::Result<()>) -> io::Result<()> {
    let mut to = BufWriter::new(to);
    put(&mut to)?;
    to.flush()
}

/// Where a command's result goes.
pub struct Target<'a> {
    path: &'a OsStr,
    force: bool,
}

impl<'a> Target<'a> {
    /// A target that may be written: standard output for `-`; else a file that
    /// is none of the inputs, and not there yet unless `force` replaces it.
    pub fn new(path: &'a OsStr, inputs: &[&OsStr], force: bool) -> Result<Self, Fault> {
        if path.is_empty() {
            return Err(Fault::usage("OUT is an empty word"));
        }
        let target = Target { path, force };
        target.must_be_free()?;
        match inputs.iter().any(|input| target.is_file(input)) {
            true => Err(target.fault("is also an input, and is not replaced")),
            false => Ok(target),
        }
    }

    fn is_standard_output(&self) -> bool {
        self.path == "-"
    }

    fn must_be_free(&self) -> Result<(), Fault> {
        match self.old() {
            None => Ok(()),
            Some(old) if old.is_dir() => Err(self.fault("is a folder, not a file")),
            // A link or a device stays what it is.
            Some(old) if !old.is_file() => Err(self.fault("is not a regular file")),
            Some(_) if self.force => Ok(()),
            Some(_) => Err(self.is_there()),
        }
    }

    /// What is there now.
    fn old(&self) -> Option<Metadata> {
        match self.is_standard_output() {
            true => None,
            false => fs::symlink_metadata(self.path).ok(),
        }
    }

    fn is_there(&self) -> Fault {
        self.fault("is there already; --force replaces it")
    }

    fn is_file(&self, input: &OsStr) -> bool {
        let input = if input == "-" {
            OsStr::new("/dev/stdin")
        } else {
            input
        };
        let same =
            |one: Metadata, other: Metadata| (one.dev(), one.ino()) == (other.dev(), other.ino());
        match (fs::metadata(self.path), fs::metadata(input)) {
            (Ok(old), Ok(input)) => same(old, input),
            _ => false,
        }
    }

    fn fault(&self, words: &str) -> Fault {
        Fault::system(format!("{}: {words}", printable_path(self.path)))
    }

    /// Writes what `put` puts. The target is complete or, after a fault, as it
    /// was.
    pub fn write(&self, put: impl FnOnce(&mut dyn Write) -> io::Result<()>) -> Result<(), Fault> {
        if self.is_standard_output() {
            return print_all(put);
        }
        let failed = |error| Fault::of_file(self.path, &error);
        let draft = Draft::new(Path::new(self.path)).map_err(failed)?;
        put_all(&draft.file, put).map_err(failed)?;
        draft.file.sync_all().map_err(failed)?;
        self.must_be_free()?;
        let target = Path::new(self.path);
        match self.old() {
            Some(old) => draft.replace(target, old.permissions()).map_err(failed),
            None => match draft.place(target) {
                Err(error) if error.kind() == io::ErrorKind::AlreadyExists => Err(self.is_there()),
                placed => placed.map_err(failed),
            },
        }
    }
}
