//! Other programs, each run under a time limit, and folders for their files.

use std::io::ErrorKind;
use std::path::{Path, PathBuf};
use std::process::{self, Command, Output};
use std::{env, fs};

use crate::gimp;

/// ImageMagick's program, as Debian names it.
pub const IMAGE_MAGICK: &str = "convert-im6.q16";

/// The seconds that a program may take.
const LIMIT: &str = "300";

/// Whether there is a program of this name.
pub fn is_here(program: &str) -> bool {
    let started = Command::new(program).arg("--version").output();
    !started.is_err_and(|error| error.kind() == ErrorKind::NotFound)
}

/// The program, ended when its time is up.
pub fn limited(program: &str) -> Command {
    let mut command = Command::new("timeout");
    command.args([LIMIT, program]);
    command
}

/// What a program prints, also as errors; it must succeed.
pub fn run(command: &mut Command) -> Output {
    let output = command.output().expect("a program that can be run");
    let errors = String::from_utf8_lossy(&output.stderr);
    assert!(output.status.success(), "{command:?}: {errors}");
    output
}

/// A folder that is gone at the end.
pub struct Scratch {
    path: PathBuf,
}

impl Scratch {
    pub fn new(name: &str) -> Self {
        let path = env::temp_dir().join(format!("xcf-{name}-{}", process::id()));
        fs::create_dir_all(&path).expect("a folder that can be made");
        Scratch { path }
    }

    pub fn path(&self) -> &Path {
        &self.path
    }

    /// The file of this name and extension.
    pub fn file(&self, name: &str, extension: &str) -> PathBuf {
        self.path.join(format!("{name}.{extension}"))
    }
}

impl Drop for Scratch {
    fn drop(&mut self) {
        // What cannot be removed does no harm.
        let _ = fs::remove_dir_all(&self.path);
    }
}

/// Has GIMP, without any settings, load files of the folder and write down what
/// it makes of each, beside it.
pub fn open_in_gimp(scratch: &Scratch, files: &[PathBuf]) {
    let settings = scratch.path().join("settings");
    fs::create_dir_all(settings.join("gradients")).expect("a folder that can be made");
    let calls = files.iter().map(|file| {
        let stem = file.with_extension("");
        format!(" (export-file {file:?} {stem:?})")
    });
    let script = gimp::data_folder().join("export.scm");
    let batch = format!("(begin (load {script:?}){})", calls.collect::<String>());
    let mut command = limited("gimp");
    command.args(["-i", "-d", "-f", "-s", "-b", &batch, "-b", "(gimp-quit 0)"]);
    let output = run(command.env("GIMP2_DIRECTORY", settings));
    let errors = String::from_utf8_lossy(&output.stderr);
    assert!(!errors.contains("execution error"), "GIMP: {errors}");
}
