//! Writes the test vectors to the files `stdin` and `stdout` of the folder
//! given as the only argument.

use std::path::Path;
use std::{fs, io};

use xcf_compare::{folder, vectors};

fn main() {
    folder::fill("tile_vectors", write);
}

fn write(folder: &Path) -> io::Result<String> {
    let vectors = vectors::build();
    fs::create_dir_all(folder)?;
    fs::write(folder.join("stdin"), &vectors.input)?;
    fs::write(folder.join("stdout"), &vectors.output)?;
    Ok(format!(
        "{} records, {} bytes in, {} bytes out",
        vectors.records,
        vectors.input.len(),
        vectors.output.len()
    ))
}
