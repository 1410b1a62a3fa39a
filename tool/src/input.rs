//! Files read once, whole.

use std::ffi::OsStr;
use std::fs::File;
use std::io::{self, Read};

use crate::escape::printable_path;
use crate::fault::Fault;
use crate::memory::{make_room, reserved};
use crate::progress::Progress;

/// How much is read between two lines of progress.
const PART: usize = 16 << 20;

/// The bytes of a file, or of standard input for `-`, but not more than
/// `most`.
pub fn read_file(path: &OsStr, most: usize, progress: &Progress) -> Result<Vec<u8>, Fault> {
    if path == "-" {
        return read_parts(path, io::stdin().lock(), 0, most, progress);
    }
    let failed = |error| Fault::of_file(path, &error);
    let file = File::open(path).map_err(failed)?;
    let length = file.metadata().map_err(failed)?.len();
    read_parts(path, file, length, most, progress)
}

/// `length` is how many bytes are awaited; there may be more or fewer.
fn read_parts(
    path: &OsStr,
    source: impl Read,
    length: u64,
    most: usize,
    progress: &Progress,
) -> Result<Vec<u8>, Fault> {
    // A byte more than is awaited, by which the end is seen.
    let room = usize::try_from(length).unwrap_or(most).min(most) + 1;
    let mut bytes = reserved(room)?;
    let mut source = source.take(most as u64);
    loop {
        let (name, read) = (printable_path(path), bytes.len());
        progress.say(match length {
            0 => format!("reading {name}: {read} bytes"),
            _ => format!("reading {name}: {read} of {length} bytes"),
        });
        if read == bytes.capacity() {
            make_room(&mut bytes, PART)?;
        }
        // No more than there is room for, so that the buffer does not grow.
        let part = PART.min(bytes.capacity() - read) as u64;
        match source.by_ref().take(part).read_to_end(&mut bytes) {
            Ok(0) => return Ok(bytes),
            Ok(_) => {}
            Err(error) => return Err(Fault::of_file(path, &error)),
        }
    }
}
