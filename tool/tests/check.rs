//! `xcf check`.

mod common;

use std::ffi::OsStr;
use std::os::unix::ffi::OsStrExt;

use common::files::{INDEXED, altered, empty, example, indexed, put_word};
use common::refusals::refused_files;
use common::{Folder, Pam};

#[test]
fn the_example_is_accepted() {
    let folder = Folder::with("example.xcf", &example());
    let line = "example.xcf: accepted, 1 row, 1 tile, none marked\n";
    folder.xcf("check example.xcf").is(0, line, "");
    folder
        .xcf("check ./example.xcf")
        .is(0, &format!("./{line}"), "");
}

#[test]
fn rows_and_tiles_of_all_kinds_are_counted() {
    let folder = Folder::with("a.pam", &Pam::noise(200, 150, "grey").bytes());
    let items = "--layer a a.pam --mask m a.pam --channel c a.pam";
    folder.xcf(&format!("pack all.xcf {items}")).is(0, "", "");
    let line = "all.xcf: accepted, 3 rows, 36 tiles, none marked\n";
    folder.xcf("check all.xcf").is(0, line, "");
    folder.put("none.xcf", &empty());
    let line = "none.xcf: accepted, 0 rows, 0 tiles, none marked\n";
    folder.xcf("check none.xcf").is(0, line, "");
}

#[test]
fn marked_tiles_are_counted_and_are_status_1() {
    let folder = Folder::with("a.pam", &Pam::noise(200, 150, "grey").bytes());
    let packed = folder.xcf("pack two.xcf --layer a a.pam --channel c a.pam");
    packed.is(0, "", "");
    folder.damage("two.xcf", 0, &[3]);
    let line = "two.xcf: accepted, 2 rows, 1 of 24 tiles marked\n";
    folder.xcf("check two.xcf").is(1, line, "");
    folder.damage("two.xcf", 1, &[0, 11]);
    let line = "two.xcf: accepted, 2 rows, 3 of 24 tiles marked\n";
    folder.xcf("check two.xcf").is(1, line, "");
}

/// A map of two colours takes ten bytes; some old releases said six.
#[test]
fn both_lengths_of_a_colour_map_are_accepted() {
    let folder = Folder::new();
    for length in 0..=12 {
        let mut file = indexed(INDEXED);
        put_word(&mut file, 30, length);
        folder.put("map.xcf", &file);
        let checked = folder.xcf("check map.xcf");
        match length {
            6 | 10 => checked.is(0, "map.xcf: accepted, 1 row, 1 tile, none marked\n", ""),
            _ => checked.is(
                1,
                "map.xcf: refused 6 at 30: the length of a property does not fit its type (that of a colour map of n colours is 3n + 4 or n + 4)\n",
                "",
            ),
        };
    }
}

#[test]
fn a_refusal_has_its_number_place_and_sentence() {
    let folder = Folder::new();
    for (file, said) in refused_files() {
        folder.put("bad.xcf", &file);
        folder
            .xcf("check bad.xcf")
            .is(1, &format!("bad.xcf: {said}\n"), "");
    }
}

#[test]
fn standard_input_is_checked() {
    let checked = Folder::new().xcf_from("check -", &example());
    checked.is(0, "-: accepted, 1 row, 1 tile, none marked\n", "");
}

#[test]
fn each_file_has_a_line_and_the_greatest_status_counts() {
    let folder = Folder::with("good.xcf", &example());
    folder.put("bad.xcf", &altered(17, 0));
    let good = "good.xcf: accepted, 1 row, 1 tile, none marked\n";
    let bad = "bad.xcf: refused 4 at 14: a width or height is outside the range 1 to 16,384\n";
    let none = "xcf: none.xcf: no such file or folder\n";
    let all = format!("{good}{bad}{good}");
    folder
        .xcf("check good.xcf good.xcf")
        .is(0, &good.repeat(2), "");
    folder
        .xcf("check good.xcf bad.xcf good.xcf")
        .is(1, &all, "");
    folder
        .xcf("check good.xcf none.xcf bad.xcf good.xcf")
        .is(2, &all, none);
    folder.xcf("check none.xcf").is(2, "", none);
}

#[test]
fn a_path_is_one_line_of_printable_text() {
    let folder = Folder::new();
    let names: [(&[u8], &str); 4] = [
        (b"two\nlines.xcf", "two\\nlines.xcf"),
        (b"\"quoted\\\".xcf", "\\\"quoted\\\\\\\".xcf"),
        (b"\xff\x1b[31m.xcf", "\\xff\\u{1b}[31m.xcf"),
        ("Schreiber ü.xcf".as_bytes(), "Schreiber ü.xcf"),
    ];
    for (name, shown) in names {
        let name = OsStr::from_bytes(name);
        let missing = folder.run([OsStr::new("check"), name]);
        missing.is(2, "", &format!("xcf: {shown}: no such file or folder\n"));
        folder.put(name, &example());
        let line = format!("{shown}: accepted, 1 row, 1 tile, none marked\n");
        folder.run([OsStr::new("check"), name]).is(0, &line, "");
    }
}
