//! Fresh folders, and the command run in them.

use std::ffi::{OsStr, OsString};
use std::fs::{self, Permissions};
use std::io::Write;
use std::os::unix::fs::PermissionsExt;
use std::path::{Path, PathBuf};
use std::process::{self, Command, Output, Stdio};
use std::sync::atomic::{AtomicUsize, Ordering};
use std::{env, thread};

use super::listing::Listing;
use super::pam::Pam;

/// The command.
pub const XCF: &str = env!("CARGO_BIN_EXE_xcf");

/// The start of an encoded tile that is a mark for every tile of more than two
/// bytes: a run of 65,535.
const TOO_LONG_A_RUN: [u8; 3] = [0x7F, 0xFF, 0xFF];

/// A folder that is removed when the test ends, also when it fails.
pub struct Folder {
    path: PathBuf,
}

impl Folder {
    pub fn new() -> Self {
        static NEXT: AtomicUsize = AtomicUsize::new(0);
        let number = NEXT.fetch_add(1, Ordering::Relaxed);
        let path = env::temp_dir().join(format!("xcf-test-{}-{number}", process::id()));
        fs::create_dir(&path).expect("a fresh folder");
        let open = Permissions::from_mode(0o755);
        fs::set_permissions(&path, open).expect("the folder is ours");
        Folder { path }
    }

    /// A folder with one file.
    pub fn with(name: impl AsRef<Path>, bytes: &[u8]) -> Self {
        let folder = Folder::new();
        folder.put(name, bytes);
        folder
    }

    /// A folder with the XCF file `name` of one visible layer "pen".
    pub fn with_layer(name: &str, pixels: &Pam) -> Self {
        let folder = Folder::with("pen.pam", &pixels.bytes());
        let packed = folder.run(["pack", name, "--layer", "pen", "pen.pam"]);
        packed.is(0, "", "");
        folder.remove("pen.pam");
        folder
    }

    pub fn path(&self, name: impl AsRef<Path>) -> PathBuf {
        self.path.join(name)
    }

    pub fn put(&self, name: impl AsRef<Path>, bytes: &[u8]) {
        fs::write(self.path(name), bytes).expect("a file in the folder");
    }

    #[track_caller]
    pub fn get(&self, name: impl AsRef<Path>) -> Vec<u8> {
        let path = self.path(name);
        fs::read(&path).unwrap_or_else(|error| panic!("{}: {error}", path.display()))
    }

    pub fn remove(&self, name: impl AsRef<Path>) {
        fs::remove_file(self.path(name)).expect("a file of the folder");
    }

    pub fn make_folder(&self, name: impl AsRef<Path>) -> PathBuf {
        let path = self.path(name);
        fs::create_dir(&path).expect("a folder in the folder");
        path
    }

    /// The names in the folder in order, hidden ones too.
    pub fn names(&self) -> Vec<String> {
        names_in(&self.path)
    }

    /// The command with the folder as its place, and no input.
    pub fn command(&self) -> Command {
        self.program(XCF)
    }

    /// Any program with the folder as its place, and no input.
    pub fn program(&self, program: impl AsRef<OsStr>) -> Command {
        let mut command = Command::new(program);
        command.current_dir(&self.path).stdin(Stdio::null());
        command
    }

    /// Runs the command with words that have no spaces.
    pub fn xcf(&self, words: &str) -> Answer {
        self.run(words.split_whitespace())
    }

    /// Runs the command.
    pub fn run<A: AsRef<OsStr>>(&self, arguments: impl IntoIterator<Item = A>) -> Answer {
        answer(self.command().args(arguments))
    }

    /// Runs the command with standard input.
    pub fn xcf_from(&self, words: &str, input: &[u8]) -> Answer {
        let mut command = self.command();
        command.args(words.split_whitespace());
        command
            .stdin(Stdio::piped())
            .stdout(Stdio::piped())
            .stderr(Stdio::piped());
        let mut child = command.spawn().expect("the command starts");
        let mut stdin = child.stdin.take().expect("a pipe was asked for");
        thread::scope(|scope| {
            // A command that needs no input may end before it is written.
            scope.spawn(move || drop(stdin.write_all(input)));
            Answer::of(child.wait_with_output().expect("the command ends"))
        })
    }

    /// The numbers of a file that is accepted.
    #[track_caller]
    pub fn listing(&self, file: &str) -> Listing {
        Listing::parse(self.run(["list", file]).text())
    }

    /// Overwrites the start of tiles of a row, so that they are marked. The
    /// tiles have more than two bytes each.
    #[track_caller]
    pub fn damage(&self, file: &str, row: usize, tiles: &[usize]) {
        let pointers = self.listing(file).rows[row].fields[8];
        let mut bytes = self.get(file);
        for tile in tiles {
            let pointer = pointers + 4 * tile;
            let word = bytes[pointer..][..4].try_into().expect("four bytes");
            let place = u32::from_be_bytes(word) as usize;
            bytes[place..][..3].copy_from_slice(&TOO_LONG_A_RUN);
        }
        self.put(file, &bytes);
    }
}

impl Drop for Folder {
    fn drop(&mut self) {
        let _ = fs::remove_dir_all(&self.path);
    }
}

/// The names in a folder in order, hidden ones too.
pub fn names_in(folder: &Path) -> Vec<String> {
    let name = |name: OsString| name.into_string().expect("a name in UTF-8");
    let entries = fs::read_dir(folder).expect("a folder");
    let mut names: Vec<String> = entries
        .map(|entry| name(entry.expect("an entry").file_name()))
        .collect();
    names.sort();
    names
}

/// What a run gave.
#[derive(Debug)]
pub struct Answer {
    pub status: i32,
    pub stdout: Vec<u8>,
    pub stderr: String,
}

/// Runs a command to its end.
pub fn answer(command: &mut Command) -> Answer {
    Answer::of(command.output().expect("the command starts"))
}

impl Answer {
    pub fn of(output: Output) -> Self {
        Answer {
            status: output.status.code().expect("the command was not killed"),
            stdout: output.stdout,
            stderr: String::from_utf8(output.stderr).expect("messages in UTF-8"),
        }
    }

    /// Standard output as text.
    #[track_caller]
    pub fn text(&self) -> &str {
        std::str::from_utf8(&self.stdout).expect("text in UTF-8")
    }

    /// Holds the run to its exit status, standard output and standard error.
    #[track_caller]
    pub fn is(&self, status: i32, stdout: &str, stderr: &str) {
        let found = (self.status, self.text(), self.stderr.as_str());
        assert_eq!(found, (status, stdout, stderr));
    }

    /// Holds the run to its exit status and to a message with these words, and
    /// to nothing on standard output.
    #[track_caller]
    pub fn fails(&self, status: i32, words: &[&str]) {
        let said = self.stderr.starts_with("xcf: ")
            && self.stderr.ends_with('\n')
            && words.iter().all(|words| self.stderr.contains(words));
        assert!(
            self.status == status && self.stdout.is_empty() && said,
            "awaited {status} and {words:?}: {self:?}"
        );
    }

    /// The same for wrong usage of a command.
    #[track_caller]
    pub fn is_usage(&self, command: &str) {
        self.fails(2, &[&format!("see xcf help {command}")]);
    }
}
