//! Writes the cases of the listing program to its crate, the folder given as
//! the only argument: the files to `data`, their names to `args`, and what the
//! program prints for them to `stdout`. Other files in `data` stay.

use std::path::Path;
use std::{fs, io};

use xcf_compare::{folder, list_cases};

fn main() {
    folder::fill("list_cases", write);
}

fn write(folder: &Path) -> io::Result<String> {
    let cases = list_cases::build();
    let data = folder.join("data");
    fs::create_dir_all(&data)?;
    for case in &cases {
        fs::write(data.join(&case.name), &case.file)?;
    }
    fs::write(folder.join("args"), list_cases::arguments(&cases))?;
    fs::write(folder.join("stdout"), list_cases::expected(&cases))?;
    let bytes: usize = cases.iter().map(|case| case.file.len()).sum();
    Ok(format!("{} files, {bytes} bytes", cases.len()))
}
