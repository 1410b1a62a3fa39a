//! Names and paths as one line of printable text.

use std::ffi::OsStr;
use std::os::unix::ffi::OsStrExt;

/// Bytes as text: what is printable UTF-8 stands as it is, but for quotes and
/// backslashes; all else is escaped, so that no two byte strings look alike.
pub fn printable(bytes: &[u8]) -> String {
    let mut text = String::new();
    for chunk in bytes.utf8_chunks() {
        let quoted = format!("{:?}", chunk.valid());
        text += &quoted[1..quoted.len() - 1];
        for byte in chunk.invalid() {
            text += &format!("\\x{byte:02x}");
        }
    }
    text
}

/// A name between quotes.
pub fn quoted(name: &[u8]) -> String {
    format!("\"{}\"", printable(name))
}

pub fn printable_path(path: &OsStr) -> String {
    printable(path.as_bytes())
}
