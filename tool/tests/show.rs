//! `xcf show`.

mod common;

use std::ffi::OsStr;
use std::os::unix::ffi::OsStrExt;

use common::files::{INDEXED, INDEXED_ALPHA, altered, empty, example, indexed};
use common::refusals::refused_files;
use common::text::{COLUMNS, narrow_lines};
use common::{Answer, Folder, Pam};

/// Holds what is shown to these lines; the width of columns is free.
#[track_caller]
fn shows(answer: &Answer, lines: &[&str]) {
    assert_eq!(narrow_lines(answer.text()), lines, "{}", answer.text());
}

#[test]
fn the_example_is_shown() {
    let lines = |name: &str| {
        [
            format!("{name}: 1 by 1, greyscale, version 0, encoded tiles, 1 row"),
            COLUMNS.to_string(),
            "0 channel 1x1 grey 255 0 0,0 visible 1 0 \"s\"".to_string(),
        ]
    };
    let folder = Folder::with("example.xcf", &example());
    let shown = folder.xcf("show example.xcf");
    shows(&shown, &lines("example.xcf").each_ref().map(String::as_str));
    assert_eq!((shown.status, shown.stderr.as_str()), (0, ""));
    let shown = folder.xcf_from("show -", &example());
    shows(&shown, &lines("-").each_ref().map(String::as_str));
    assert_eq!((shown.status, shown.stderr.as_str()), (0, ""));
}

#[test]
fn a_file_without_rows_has_no_table() {
    let folder = Folder::with("empty.xcf", &empty());
    let line = "empty.xcf: 1 by 1, greyscale, version 0, encoded tiles, 0 rows\n";
    folder.xcf("show empty.xcf").is(0, line, "");
}

#[test]
fn layers_masks_and_channels_are_told_apart() {
    let folder = Folder::with("rgb.pam", &Pam::noise(70, 65, "red green blue").bytes());
    folder.put(
        "rgba.pam",
        &Pam::noise(9, 7, "red green blue alpha").bytes(),
    );
    folder.put("mask.pam", &Pam::noise(9, 7, "grey").bytes());
    folder.put("whole.pam", &Pam::noise(70, 65, "grey").bytes());
    let packed = folder.xcf(
        "pack all.xcf --layer paper rgb.pam --hidden --opacity 7 \
         --layer pen rgba.pam --offset -5,300 --mode 19 --active --mask shape mask.pam \
         --layer ink rgba.pam --mask off mask.pam --unapplied --visible --opacity 0 \
         --channel chosen whole.pam --selection --channel suspect whole.pam --active --visible",
    );
    packed.is(0, "", "");
    let shown = folder.xcf("show all.xcf");
    let lines = [
        "all.xcf: 70 by 65, RGB, version 2, encoded tiles, 7 rows",
        COLUMNS,
        "0 layer 70x65 RGB 7 0 0,0 - 4 0 \"paper\"",
        "1 layer 9x7 RGB alpha 255 19 -5,300 visible, apply mask, active 1 0 \"pen\"",
        "2 mask 9x7 grey 255 0 -5,300 - 1 0 \"shape\"",
        "3 layer 9x7 RGB alpha 255 0 0,0 visible 1 0 \"ink\"",
        "4 mask 9x7 grey 0 0 0,0 visible 1 0 \"off\"",
        "5 channel 70x65 grey 255 0 0,0 selection 4 0 \"chosen\"",
        "6 channel 70x65 grey 255 0 0,0 visible, active 4 0 \"suspect\"",
    ];
    shows(&shown, &lines);
    assert_eq!((shown.status, shown.stderr.as_str()), (0, ""));
}

#[test]
fn grey_layers_are_shown() {
    let folder = Folder::with("grey.pam", &Pam::noise(3, 2, "grey").bytes());
    folder.put("alpha.pam", &Pam::noise(3, 2, "grey alpha").bytes());
    let packed = folder.xcf("pack grey.xcf --layer a grey.pam --layer b alpha.pam");
    packed.is(0, "", "");
    let lines = [
        "grey.xcf: 3 by 2, greyscale, version 0, encoded tiles, 2 rows",
        COLUMNS,
        "0 layer 3x2 grey 255 0 0,0 visible 1 0 \"a\"",
        "1 layer 3x2 grey alpha 255 0 0,0 visible 1 0 \"b\"",
    ];
    shows(&folder.xcf("show grey.xcf"), &lines);
}

#[test]
fn indexed_groups_in_plain_tiles_are_shown() {
    for (layer_type, shown) in [(INDEXED, "indexed"), (INDEXED_ALPHA, "indexed alpha")] {
        let folder = Folder::with("map.xcf", &indexed(layer_type));
        let row = format!("0 layer 2x1 {shown} 255 0 -1,-2 visible, group 1 0 \"map\"");
        let head = "map.xcf: 2 by 1, indexed, version 3, plain tiles, 1 row";
        shows(&folder.xcf("show map.xcf"), &[head, COLUMNS, &row]);
    }
}

#[test]
fn names_are_quoted_and_escaped() {
    let names: [(&[u8], &str); 6] = [
        (b"", "\"\""),
        (b"two  spaces", "\"two  spaces\""),
        (
            b"tab\tline\nquote\"back\\",
            "\"tab\\tline\\nquote\\\"back\\\\\"",
        ),
        (b"\x1b[2J", "\"\\u{1b}[2J\""),
        (b"latin \xe4\xf6", "\"latin \\xe4\\xf6\""),
        ("Feder ä 笔".as_bytes(), "\"Feder ä 笔\""),
    ];
    let folder = Folder::with("p.pam", &Pam::flat(1, 1, "grey", 1).bytes());
    for (name, shown) in names {
        let words = ["pack", "--force", "n.xcf", "--layer"].map(OsStr::new);
        let words = words
            .into_iter()
            .chain([OsStr::from_bytes(name), OsStr::new("p.pam")]);
        folder.run(words).is(0, "", "");
        let row = folder.xcf("show n.xcf");
        assert!(
            row.text().ends_with(&format!(" {shown}\n")),
            "{}",
            row.text()
        );
    }
}

/// Names begin in one column, under the word that says so.
#[test]
fn the_last_column_is_straight() {
    let folder = Folder::with("wide.pam", &Pam::noise(200, 150, "grey alpha").bytes());
    folder.put("p.pam", &Pam::flat(1, 1, "grey", 1).bytes());
    let packed = folder.xcf(
        "pack two.xcf --layer a wide.pam --offset -1000,-1000 --mode 3 --active \
         --layer b p.pam --mask c p.pam",
    );
    packed.is(0, "", "");
    let shown = folder.xcf("show two.xcf");
    let starts = shown.text().lines().skip(1);
    let starts: Vec<_> = starts
        .map(|line| line.find('"').or(line.find("name")))
        .collect();
    assert!(
        starts.iter().all(|start| *start == starts[0]),
        "{}",
        shown.text()
    );
}

#[test]
fn marked_tiles_are_shown_on_a_map() {
    let folder = Folder::with("a.pam", &Pam::noise(200, 150, "grey").bytes());
    let packed =
        folder.xcf("pack two.xcf --layer pen a.pam --channel good a.pam --channel bad a.pam");
    packed.is(0, "", "");
    folder.damage("two.xcf", 0, &[5]);
    folder.damage("two.xcf", 2, &[0, 3, 8, 9, 10, 11]);
    let shown = folder.xcf("show two.xcf");
    let lines = [
        "two.xcf: 200 by 150, greyscale, version 0, encoded tiles, 3 rows",
        COLUMNS,
        "0 layer 200x150 grey 255 0 0,0 visible 12 1 \"pen\"",
        "1 channel 200x150 grey 255 0 0,0 - 12 0 \"good\"",
        "2 channel 200x150 grey 255 0 0,0 - 12 6 \"bad\"",
        "row 0 \"pen\": 1 of 12 tiles marked (. good, # marked)",
        "  ....",
        "  .#..",
        "  ....",
        "row 2 \"bad\": 6 of 12 tiles marked (. good, # marked)",
        "  #..#",
        "  ....",
        "  ####",
    ];
    shows(&shown, &lines);
    assert_eq!(
        shown.stderr,
        "xcf: two.xcf: row 0 \"pen\": 1 of 12 tiles marked\n\
         xcf: two.xcf: row 2 \"bad\": 6 of 12 tiles marked\n"
    );
    assert_eq!(shown.status, 1);
}

#[test]
fn a_refused_file_shows_nothing() {
    let folder = Folder::new();
    for (file, said) in refused_files() {
        folder.put("bad.xcf", &file);
        let shown = folder.xcf("show bad.xcf");
        shown.is(1, "", &format!("xcf: bad.xcf: {said}\n"));
    }
    let shown = folder.xcf_from("show -", &altered(0, 0));
    shown.is(
        1,
        "",
        "xcf: -: refused 2 at 0: the file does not begin with \"gimp xcf \"\n",
    );
}
