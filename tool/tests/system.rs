//! Faults of the system: files that are not there, may not be touched or are
//! in use, full disks, closed pipes; and what is shown on a terminal.

mod common;

use std::fs::{self, File, OpenOptions, Permissions};
use std::io;
use std::os::unix::fs::{PermissionsExt, symlink};
use std::path::{Path, PathBuf};
use std::process::Command;
use std::thread;
use std::time::{Duration, Instant};

use common::files::{example, laborious};
use common::folder::{answer, names_in};
use common::{Answer, Folder, Pam, XCF, not_here};

/// How each command is run on a file that it reads.
fn readers(file: &str) -> [String; 6] {
    [
        format!("list {file}"),
        format!("show {file}"),
        format!("check {file}"),
        format!("extract {file} 0 out.pam"),
        format!("pack out.xcf --layer a {file}"),
        format!("pack out.xcf --layer a p.pam --mask m {file}"),
    ]
}

/// A folder with the example, and with `p.pam` of one pixel.
fn with_both() -> Folder {
    let folder = Folder::with("example.xcf", &example());
    folder.put("p.pam", &Pam::flat(1, 1, "grey", 255).bytes());
    folder
}

/// How each command that writes a file is run, with what it writes.
fn writers(target: &str) -> [String; 2] {
    [
        format!("extract example.xcf 0 {target}"),
        format!("pack {target} --channel s p.pam"),
    ]
}

#[test]
fn a_missing_file_is_told() {
    let folder = with_both();
    for words in readers("none") {
        folder
            .xcf(&words)
            .is(2, "", "xcf: none: no such file or folder\n");
    }
    for words in readers("p.pam/below") {
        folder.xcf(&words).is(
            2,
            "",
            "xcf: p.pam/below: a part of the path is not a folder\n",
        );
    }
    assert_eq!(folder.names(), ["example.xcf", "p.pam"]);
}

#[test]
fn a_folder_is_not_an_input() {
    let folder = with_both();
    folder.make_folder("sub");
    for words in readers("sub") {
        folder
            .xcf(&words)
            .is(2, "", "xcf: sub: is a folder, not a file\n");
    }
    assert_eq!(folder.names(), ["example.xcf", "p.pam", "sub"]);
}

#[test]
fn a_folder_is_not_an_output() {
    let folder = with_both();
    folder.make_folder("sub");
    for target in ["sub", "sub/", "sub/.", ".", "..", "/"] {
        for words in writers(target) {
            folder.xcf(&words).fails(2, &[&format!("xcf: {target}: ")]);
            let forced = folder.xcf(&format!("{words} --force"));
            forced.is(2, "", &format!("xcf: {target}: is a folder, not a file\n"));
        }
    }
    assert_eq!(folder.names(), ["example.xcf", "p.pam", "sub"]);
    assert!(names_in(&folder.path("sub")).is_empty());
}

#[test]
fn a_target_in_no_folder_is_told() {
    let folder = with_both();
    for words in writers("none/out") {
        folder
            .xcf(&words)
            .is(2, "", "xcf: none/out: no such file or folder\n");
    }
    for words in writers("p.pam/out") {
        folder.xcf(&words).is(
            2,
            "",
            "xcf: p.pam/out: a part of the path is not a folder\n",
        );
    }
    assert_eq!(folder.names(), ["example.xcf", "p.pam"]);
}

/// A name as long as the file system takes is a target too.
#[test]
fn a_target_may_have_the_longest_name() {
    let folder = with_both();
    let name = "n".repeat(255);
    for words in writers(&name) {
        folder.xcf(&words).is(0, "", "");
        folder.remove(&name);
    }
}

/// The command as the user nobody, who owns nothing here; none where the tests
/// may not become another user. The command is copied to where nobody may run
/// it, by another process: one that is written to here could not be started.
fn as_nobody(folder: &Folder) -> Option<Vec<String>> {
    let ids = [
        "setpriv",
        "--reuid=65534",
        "--regid=65534",
        "--clear-groups",
    ];
    let tried = Command::new(ids[0]).args(&ids[1..]).arg("true").output();
    if !tried.is_ok_and(|tried| tried.status.success()) {
        not_here("setpriv cannot make the tests another user");
        return None;
    }
    let copy = folder.path("xcf-copy");
    let copied = Command::new("cp").arg(XCF).arg(&copy).status();
    assert!(
        copied.is_ok_and(|copied| copied.success()),
        "the command is copied"
    );
    set_mode(&copy, 0o755);
    let copy = copy
        .into_os_string()
        .into_string()
        .expect("a path in UTF-8");
    Some(ids.map(str::to_string).into_iter().chain([copy]).collect())
}

fn set_mode(path: &Path, mode: u32) {
    fs::set_permissions(path, Permissions::from_mode(mode)).expect("the file is ours");
}

/// Runs the command with the words in front of it that make it nobody's.
fn run_as(folder: &Folder, nobody: &[String], words: &str) -> Answer {
    let (program, before) = nobody.split_first().expect("a program");
    let mut command = folder.program(program);
    answer(command.args(before).args(words.split_whitespace()))
}

#[test]
fn a_file_that_may_not_be_read_is_told() {
    let folder = with_both();
    let Some(nobody) = as_nobody(&folder) else {
        return;
    };
    folder.put("secret", &example());
    set_mode(&folder.path("secret"), 0o600);
    let closed = folder.make_folder("closed");
    folder.put("closed/in", &example());
    set_mode(&closed, 0o700);
    let open = folder.make_folder("open");
    set_mode(&open, 0o777);
    for file in ["secret", "closed/in"] {
        for words in readers(file) {
            let words = words.replace(" out.", " open/out.");
            let told = format!("xcf: {file}: no permission\n");
            run_as(&folder, &nobody, &words).is(2, "", &told);
        }
    }
    assert!(names_in(&open).is_empty());
    run_as(&folder, &nobody, "check example.xcf secret").is(
        2,
        "example.xcf: accepted, 1 row, 1 tile, none marked\n",
        "xcf: secret: no permission\n",
    );
}

#[test]
fn a_folder_that_may_not_be_written_is_told() {
    let folder = with_both();
    let Some(nobody) = as_nobody(&folder) else {
        return;
    };
    let closed = folder.make_folder("closed");
    folder.put("closed/old", b"kept");
    set_mode(&folder.path("closed/old"), 0o666);
    for target in ["closed/new", "closed/old --force"] {
        let path = target.split(' ').next().expect("a word");
        for words in writers(target) {
            let told = format!("xcf: {path}: no permission\n");
            run_as(&folder, &nobody, &words).is(2, "", &told);
        }
    }
    assert_eq!(names_in(&closed), ["old"]);
    assert_eq!(folder.get("closed/old"), b"kept");
}

/// A small file system in memory, unmounted when the test ends.
struct SmallDisk {
    path: PathBuf,
}

impl SmallDisk {
    /// A disk of 64 KiB; none where the tests may not mount it.
    fn new(folder: &Folder) -> Option<Self> {
        let path = folder.make_folder("disk");
        let mut mount = Command::new("mount");
        mount
            .args(["-t", "tmpfs", "-o", "size=64k", "tmpfs"])
            .arg(&path);
        if mount.output().is_ok_and(|mounted| mounted.status.success()) {
            return Some(SmallDisk { path });
        }
        not_here("a small file system cannot be mounted");
        None
    }
}

impl Drop for SmallDisk {
    fn drop(&mut self) {
        let _ = Command::new("umount").arg(&self.path).status();
    }
}

#[test]
fn a_full_disk_leaves_nothing() {
    let pixels = Pam::noise(400, 400, "grey");
    let folder = Folder::with_layer("large.xcf", &pixels);
    folder.put("large.pam", &pixels.bytes());
    let Some(disk) = SmallDisk::new(&folder) else {
        return;
    };
    for words in [
        "extract large.xcf 0 disk/out",
        "extract --no-marks large.xcf 0 disk/out",
        "pack disk/out --layer a large.pam",
    ] {
        let full = "xcf: disk/out: the disk is full\n";
        folder.xcf(words).is(2, "", full);
        assert!(names_in(&disk.path).is_empty(), "{words}");
        folder.put("disk/out", b"kept");
        folder.xcf(&format!("{words} --force")).is(2, "", full);
        assert_eq!(names_in(&disk.path), ["out"], "{words}");
        assert_eq!(folder.get("disk/out"), b"kept");
        folder.remove("disk/out");
    }
}

/// The commands that print, on a file for which they print something.
const PRINTERS: [&str; 8] = [
    "list example.xcf",
    "list example.xcf example.xcf",
    "show example.xcf",
    "check example.xcf",
    "extract example.xcf 0 -",
    "--version",
    "--help",
    "help pack",
];

#[test]
fn a_full_standard_output_is_told() {
    let Ok(full) = OpenOptions::new().write(true).open("/dev/full") else {
        return not_here("there is no /dev/full");
    };
    let folder = with_both();
    for words in PRINTERS {
        let stdout = full.try_clone().expect("a second handle");
        let mut command = folder.command();
        command.args(words.split(' ')).stdout(stdout);
        answer(&mut command).fails(2, &["the disk is full"]);
    }
}

/// Also where all that is printed fits a buffer.
#[test]
fn a_closed_pipe_is_told() {
    let folder = with_both();
    let large = Folder::with_layer("large.xcf", &Pam::noise(400, 400, "grey"));
    let on_large = ["extract large.xcf 0 -", "list large.xcf", "show large.xcf"];
    let runs = PRINTERS.map(|words| (&folder, words)).into_iter();
    for (folder, words) in runs.chain(on_large.map(|words| (&large, words))) {
        let (reader, writer) = io::pipe().expect("a pipe");
        drop(reader);
        let mut command = folder.command();
        command.args(words.split(' ')).stdout(writer);
        let closed = answer(&mut command);
        closed.fails(2, &["the pipe was closed before all was written"]);
    }
}

/// What cannot be printed is told once, and no further file is read for it.
#[test]
fn a_closed_pipe_ends_the_command() {
    let folder = with_both();
    for words in [
        "check example.xcf example.xcf none",
        "list example.xcf example.xcf none",
    ] {
        let (reader, writer) = io::pipe().expect("a pipe");
        drop(reader);
        let mut command = folder.command();
        command.args(words.split(' ')).stdout(writer);
        let said = "xcf: standard output: the pipe was closed before all was written\n";
        answer(&mut command).is(2, "", said);
    }
}

/// Marked tiles are told of also where their pixels were written in part.
#[test]
fn marks_are_told_where_output_fails() {
    let folder = Folder::with_layer("pen.xcf", &Pam::noise(400, 400, "grey"));
    folder.damage("pen.xcf", 0, &[3]);
    for words in ["extract pen.xcf 0 -", "show pen.xcf"] {
        let (reader, writer) = io::pipe().expect("a pipe");
        drop(reader);
        let mut command = folder.command();
        command.args(words.split(' ')).stdout(writer);
        let marked = "xcf: pen.xcf: row 0 \"pen\": 1 of 49 tiles marked\n";
        answer(&mut command).fails(2, &[marked, "the pipe was closed"]);
    }
}

/// A closed standard error is nobody to tell, and no reason to stop or to fail
/// otherwise.
#[test]
fn a_closed_standard_error_changes_no_status() {
    let folder = with_both();
    for (words, status) in [
        ("check none example.xcf", 2),
        ("extract example.xcf 9 -", 1),
    ] {
        let (reader, writer) = io::pipe().expect("a pipe");
        drop(reader);
        let mut command = folder.command();
        command.args(words.split(' ')).stderr(writer);
        assert_eq!(answer(&mut command).status, status, "{words}");
    }
}

/// However its path is spelled, an input is not replaced, by force neither.
#[test]
fn an_input_is_never_the_output() {
    let folder = with_both();
    folder.make_folder("sub");
    folder.put("other.pam", &Pam::flat(1, 1, "grey", 0).bytes());
    symlink("example.xcf", folder.path("link.xcf")).expect("a link");
    symlink("p.pam", folder.path("link.pam")).expect("a link");
    symlink(".", folder.path("here")).expect("a link");
    let whole = folder
        .path("")
        .into_os_string()
        .into_string()
        .expect("a path in UTF-8");
    for place in ["", "./", "sub/../", "here/", &whole] {
        for (input, target) in both_ways("example.xcf", "link.xcf") {
            kept(&folder, &format!("extract {input} 0 {place}{target}"));
        }
        for (input, target) in both_ways("p.pam", "link.pam") {
            kept(
                &folder,
                &format!("pack {place}{target} --channel s {input}"),
            );
            let items = format!("--layer a other.pam --channel s {input}");
            kept(&folder, &format!("pack {place}{target} {items}"));
        }
    }
}

/// Each of two names with each.
fn both_ways<'a>(one: &'a str, other: &'a str) -> [(&'a str, &'a str); 4] {
    [(one, one), (one, other), (other, one), (other, other)]
}

/// Holds the command to wrong usage, with and without force, after which the
/// files of the folder are as they were.
#[track_caller]
fn kept(folder: &Folder, words: &str) {
    let names = folder.names();
    folder.xcf(words).fails(2, &[]);
    folder.xcf(&format!("{words} --force")).fails(2, &[]);
    assert_eq!(folder.names(), names, "{words}");
    assert_eq!(folder.get("example.xcf"), example(), "{words}");
    assert_eq!(
        folder.get("p.pam"),
        Pam::flat(1, 1, "grey", 255).bytes(),
        "{words}"
    );
    assert!(folder.path("link.xcf").is_symlink() && folder.path("link.pam").is_symlink());
}

#[test]
fn another_name_of_the_input_is_never_the_output() {
    let folder = with_both();
    fs::hard_link(folder.path("example.xcf"), folder.path("second.xcf")).expect("a link");
    folder
        .xcf("extract --force example.xcf 0 second.xcf")
        .fails(2, &["xcf: second.xcf: "]);
    assert_eq!(folder.get("second.xcf"), example());
}

#[test]
fn a_file_that_is_standard_input_is_never_the_output() {
    let folder = with_both();
    let input = File::open(folder.path("example.xcf")).expect("the example");
    let mut command = folder.command();
    command
        .args(["extract", "--force", "-", "0", "example.xcf"])
        .stdin(input);
    answer(&mut command).fails(2, &["xcf: example.xcf: "]);
    assert_eq!(folder.get("example.xcf"), example());
}

/// A link stays one, and what it leads to stays as it is.
#[test]
fn a_link_is_not_replaced() {
    let folder = with_both();
    folder.put("real", b"kept");
    for (link, to) in [("link", "real"), ("dangling", "none")] {
        symlink(to, folder.path(link)).expect("a link");
        for words in writers(link) {
            let forced = folder.xcf(&format!("{words} --force"));
            forced.is(2, "", &format!("xcf: {link}: is not a regular file\n"));
        }
        assert!(folder.path(link).is_symlink());
    }
    assert_eq!(folder.get("real"), b"kept");
    assert_eq!(
        folder.names(),
        ["dangling", "example.xcf", "link", "p.pam", "real"]
    );
}

/// What takes the place of a file has its permissions.
#[test]
fn permissions_are_kept() {
    let folder = with_both();
    for words in writers("out") {
        folder.put("out", b"old");
        let private = Permissions::from_mode(0o600);
        fs::set_permissions(folder.path("out"), private).expect("a file of ours");
        folder.xcf(&format!("{words} --force")).is(0, "", "");
        let mode = fs::metadata(folder.path("out"))
            .expect("a file")
            .permissions()
            .mode();
        assert_eq!(mode & 0o777, 0o600);
        assert_ne!(folder.get("out"), b"old");
        folder.remove("out");
    }
}

/// A target that is no plain file, such as a device or a pipe, stays what it is.
#[test]
fn a_special_file_is_not_replaced() {
    let folder = with_both();
    let made = folder.program("mkfifo").arg("fifo").status();
    if !made.is_ok_and(|made| made.success()) {
        return not_here("mkfifo cannot make a named pipe");
    }
    for words in writers("fifo") {
        folder.xcf(&words).fails(2, &["xcf: fifo: "]);
        folder
            .xcf(&format!("{words} --force"))
            .fails(2, &["xcf: fifo: "]);
    }
    assert_eq!(folder.names(), ["example.xcf", "fifo", "p.pam"]);
    assert!(!folder.path("fifo").is_file());
}

/// A command that is killed while it writes leaves the target as it was, and a
/// temporary file that no later command minds.
#[test]
fn a_killed_command_leaves_its_target() {
    let pixels = Pam::flat(4096, 4096, "red green blue", 9);
    let folder = Folder::with_layer("large.xcf", &pixels);
    folder.put("out.pam", b"kept");
    let words = "extract --force large.xcf 0 out.pam";
    let mut child = folder
        .command()
        .args(words.split(' '))
        .spawn()
        .expect("the command starts");
    while folder.names().len() == 2 && child.try_wait().expect("a child").is_none() {
        thread::sleep(Duration::from_millis(1));
    }
    child
        .kill()
        .and_then(|()| child.wait())
        .expect("the command was started here");
    let complete = pixels.with_marks(&[]).bytes();
    if folder.get("out.pam") == b"kept" {
        let temporary = format!(".xcf-{}.tmp", child.id());
        assert_eq!(folder.names(), [temporary.as_str(), "large.xcf", "out.pam"]);
    } else {
        not_here("the command was complete before it was killed");
    }
    folder.xcf(words).is(0, "", "");
    assert!(folder.get("out.pam") == complete);
}

/// Also where the number of the killed command comes again, as it soon does in
/// a container.
#[test]
fn a_temporary_file_left_over_is_no_obstacle() {
    let folder = with_both();
    for words in writers("out") {
        let script = format!(": > .xcf-$$.tmp; exec '{XCF}' {words}");
        answer(folder.program("sh").args(["-c", &script])).is(0, "", "");
        folder.remove("out");
    }
}

/// What a terminal showed of a command, and how long that took.
struct Shown {
    text: String,
    time: Duration,
}

/// The command on a terminal, with its standard output in the file `out`; none
/// where there is no terminal to be had.
fn on_a_terminal(folder: &Folder, words: &str) -> Option<Shown> {
    let command = format!("'{XCF}' {words} > out");
    let mut script = folder.program("script");
    script.args(["-qec", &command, "/dev/null"]);
    let start = Instant::now();
    let output = script.output();
    let time = start.elapsed();
    match output {
        Ok(output) if output.stderr.is_empty() => {
            let text = String::from_utf8(output.stdout).expect("text in UTF-8");
            Some(Shown { text, time })
        }
        tried => {
            not_here(&format!("script gives no terminal: {tried:?}"));
            None
        }
    }
}

#[test]
fn short_work_shows_no_progress() {
    let folder = with_both();
    let printers = PRINTERS.map(str::to_string).into_iter();
    for words in printers.chain(writers("written")) {
        let Some(Shown { text, time }) = on_a_terminal(&folder, &words) else {
            return;
        };
        match time < Duration::from_secs(1) {
            true => assert_eq!(text, "", "{words}"),
            false => not_here(&format!("{words} took {time:?}")),
        }
        let _ = fs::remove_file(folder.path("written"));
    }
}

/// Work of some seconds is shown on a terminal, and nowhere else.
#[test]
fn long_work_shows_progress_on_a_terminal_only() {
    let folder = Folder::with("long.xcf", &laborious(16));
    let line = "long.xcf: accepted, 16 rows, 1048576 tiles, none marked\n";
    folder.xcf("check long.xcf").is(0, line, "");
    let Some(Shown { text, time }) = on_a_terminal(&folder, "check long.xcf") else {
        return;
    };
    assert_eq!(folder.get("out"), line.as_bytes());
    if time < Duration::from_millis(1_500) {
        return not_here(&format!("the long work took only {time:?}"));
    }
    assert!(
        text.contains("xcf: ") && text.contains("long.xcf"),
        "{text:?}"
    );
    // The line is cleared at the end.
    assert!(text.ends_with("\r\u{1b}[K"), "{text:?}");
}
