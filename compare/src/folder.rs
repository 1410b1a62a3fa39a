//! Folders that programs write files to, and that tests find them in.

use std::path::{Path, PathBuf};
use std::{env, io, process};

/// The folder of a crate in the library's language.
pub fn of_crate(name: &str) -> PathBuf {
    let crates = Path::new(env!("CARGO_MANIFEST_DIR")).join("../crates");
    crates.join(name)
}

/// Lets `write` fill the folder that is the program's only argument, and prints
/// the line that it gives; ends the program where that fails.
pub fn fill(program: &str, write: impl FnOnce(&Path) -> io::Result<String>) {
    let arguments: Vec<String> = env::args().skip(1).collect();
    let [folder] = arguments.as_slice() else {
        eprintln!("usage: {program} FOLDER");
        process::exit(2);
    };
    match write(Path::new(folder)) {
        Ok(line) => println!("{line}"),
        Err(error) => {
            eprintln!("{folder}: {error}");
            process::exit(1);
        }
    }
}
