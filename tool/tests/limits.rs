//! The largest inputs: files as long as is accepted and longer, as many rows
//! as there may be, the largest grey drawable.

mod common;

use std::fs::{self, OpenOptions};
use std::io::Write;
use std::process::Stdio;

use common::files::{EXAMPLE_LISTING, example};
use common::folder::{Answer, answer};
use common::{Folder, Pam, XCF};

const FILE_LIMIT: u64 = 1_073_741_824;
const SIDE_LIMIT: usize = 16_384;

/// The example, followed by zeros.
fn long_file(folder: &Folder, length: u64) {
    folder.put("long.xcf", &example());
    let file = OpenOptions::new().write(true).open(folder.path("long.xcf"));
    let file = file.expect("the file was written");
    file.set_len(length).expect("a file with a hole");
}

#[test]
fn a_file_may_be_as_long_as_the_limit() {
    let folder = Folder::new();
    long_file(&folder, FILE_LIMIT);
    folder.xcf("list long.xcf").is(0, EXAMPLE_LISTING, "");
    long_file(&folder, FILE_LIMIT + 1);
    folder.xcf("list long.xcf").is(1, "refused 15 at 0\n", "");
    let refused = "refused 15 at 0: the file is longer than 1,073,741,824 bytes";
    folder
        .xcf("check long.xcf")
        .is(1, &format!("long.xcf: {refused}\n"), "");
    let said = format!("xcf: long.xcf: {refused}\n");
    folder.xcf("show long.xcf").is(1, "", &said);
    folder.xcf("extract long.xcf 0 out.pam").is(1, "", &said);
    assert_eq!(folder.names(), ["long.xcf"]);
}

/// More bytes come for as long as they are taken.
#[test]
fn a_file_that_grows_past_the_limit_is_refused() {
    let folder = Folder::new();
    let mut command = folder.command();
    command.args(["check", "-"]).stdin(Stdio::piped());
    command.stdout(Stdio::piped()).stderr(Stdio::piped());
    let mut child = command.spawn().expect("the command starts");
    let mut stdin = child.stdin.take().expect("a pipe was asked for");
    let zeros = vec![0; 1 << 20];
    let mut grown = stdin.write_all(&example());
    while grown.is_ok() {
        grown = stdin.write_all(&zeros);
    }
    let answer = Answer::of(child.wait_with_output().expect("the command ends"));
    answer.is(
        1,
        "-: refused 15 at 0: the file is longer than 1,073,741,824 bytes\n",
        "",
    );
}

/// So many layers, all with masks, and so many channels.
fn items(layers: usize, channels: usize) -> Vec<&'static str> {
    let mut items = vec!["pack", "--force", "all.xcf"];
    for _ in 0..layers {
        items.extend(["--layer", "l", "pen.pam", "--mask", "m", "pen.pam"]);
    }
    for _ in 0..channels {
        items.extend(["--channel", "c", "pen.pam"]);
    }
    items
}

#[test]
fn a_table_has_128_rows() {
    let folder = Folder::with("pen.pam", &Pam::noise(65, 1, "grey").bytes());
    folder.run(items(48, 32)).is(0, "", "");
    let listing = folder.listing("all.xcf");
    assert_eq!((listing.rows.len(), listing.tiles()), (128, 256));
    let accepted = "all.xcf: accepted, 128 rows, 256 tiles, none marked\n";
    folder.xcf("check all.xcf").is(0, accepted, "");
    let shown = folder.xcf("show all.xcf");
    assert_eq!((shown.status, shown.text().lines().count()), (0, 130));
    folder.xcf("extract all.xcf 127 out.pam").is(0, "", "");
    let kept = folder.get("all.xcf");
    let too_many = "xcf: all.xcf: refused 17 at 96: a row cannot be written as it is given";
    folder
        .run(items(49, 30))
        .is(1, "", &format!("{too_many}: the layer \"l\"\n"));
    let too_many = "xcf: all.xcf: more than 128 layers, masks and channels\n";
    folder.run(items(48, 33)).is(1, "", too_many);
    assert!(folder.get("all.xcf") == kept);
}

/// Runs the command with at most so many kilobytes of memory.
fn within(folder: &Folder, kilobytes: usize, words: &str) -> Answer {
    let script = format!("ulimit -v {kilobytes} && exec {XCF} {words}");
    answer(folder.program("bash").args(["-c", &script]))
}

/// A grey layer of 256 MiB that hardly gets shorter. To check and to show it
/// takes the file and little more; to extract it, or to show where it is
/// damaged, its pixels too.
#[test]
fn the_largest_grey_drawable() {
    let pixels = Pam::noise(SIDE_LIMIT, SIDE_LIMIT, "grey");
    let folder = Folder::with_layer("large.xcf", &pixels);
    let length = fs::metadata(folder.path("large.xcf"))
        .expect("a file")
        .len();
    assert!(length > pixels.pixels.len() as u64);
    let accepted = "large.xcf: accepted, 1 row, 65536 tiles, none marked\n";
    within(&folder, 300_000, "check large.xcf").is(0, accepted, "");
    assert_eq!(within(&folder, 300_000, "list large.xcf").status, 0);
    assert_eq!(within(&folder, 300_000, "show large.xcf").status, 0);
    let none = "xcf: there is not enough memory for 268435456 bytes\n";
    within(&folder, 400_000, "extract large.xcf 0 out.pam").is(2, "", none);
    assert_eq!(folder.names(), ["large.xcf"]);
    let piped = "cat large.xcf | (ulimit -v 200000 && exec ";
    let piped = format!("{piped} {XCF} check -)");
    let piped = answer(folder.program("bash").args(["-c", &piped]));
    piped.fails(2, &["there is not enough memory"]);
    within(&folder, 560_000, "extract large.xcf 0 out.pam --no-marks").is(0, "", "");
    assert!(folder.get("out.pam") == pixels.bytes());

    folder.damage("large.xcf", 0, &[0, 65_535]);
    within(&folder, 400_000, "show large.xcf").is(2, "", none);
    let shown = within(&folder, 560_000, "show large.xcf");
    let row = "row 0 \"pen\": 2 of 65536 tiles marked";
    assert_eq!(
        (shown.status, shown.stderr),
        (1, format!("xcf: large.xcf: {row}\n"))
    );
    let map = String::from_utf8(shown.stdout).expect("text");
    assert_eq!(map.matches('#').count(), 3, "two tiles, and what # means");
    assert!(map.ends_with("..#\n"));
}
