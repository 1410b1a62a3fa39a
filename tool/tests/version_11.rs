//! A file of version 11 through every command.

mod common;

use common::files::{WIDE_LISTING, changed, example, wide};
use common::text::{COLUMNS, narrow_lines};
use common::{Folder, Pam};

#[test]
fn it_is_listed() {
    let folder = Folder::with("wide.xcf", &wide());
    folder.xcf("list wide.xcf").is(0, WIDE_LISTING, "");
    folder.xcf_from("list -", &wide()).is(0, WIDE_LISTING, "");
}

#[test]
fn it_is_checked_and_shown() {
    let folder = Folder::with("wide.xcf", &wide());
    let line = "wide.xcf: accepted, 1 row, 1 tile, none marked\n";
    folder.xcf("check wide.xcf").is(0, line, "");
    let shown = folder.xcf("show wide.xcf");
    let lines = [
        "wide.xcf: 1 by 1, greyscale, version 11, encoded tiles, 1 row",
        COLUMNS,
        "0 channel 1x1 grey 255 0 0,0 visible 1 0 \"s\"",
    ];
    assert_eq!(narrow_lines(shown.text()), lines);
    assert_eq!((shown.status, shown.stderr.as_str()), (0, ""));
}

/// Its pixel is the example's, and what is packed from it is the example,
/// which has version 0.
#[test]
fn it_is_extracted_and_packed() {
    let folder = Folder::with("wide.xcf", &wide());
    folder.xcf("extract wide.xcf 0 s.pam").is(0, "", "");
    let pixels = Pam::flat(1, 1, "grey", 255).with_marks(&[]);
    assert_eq!(folder.get("s.pam"), pixels.bytes());
    folder
        .xcf("pack example.xcf --channel s s.pam --visible")
        .is(0, "", "");
    assert_eq!(folder.get("example.xcf"), example());
}

#[test]
fn a_marked_tile_is_told_of() {
    let folder = Folder::with("bad.xcf", &changed(wide(), 177, &[2]));
    let told = "row 0 \"s\": 1 of 1 tiles marked";
    let said = format!("xcf: bad.xcf: {told}\n");
    let listing = WIDE_LISTING.replace("bad 0", "bad 1");
    folder.xcf("list bad.xcf").is(1, &listing, "");
    let line = "bad.xcf: accepted, 1 row, 1 of 1 tile marked\n";
    folder.xcf("check bad.xcf").is(1, line, "");
    let shown = folder.xcf("show bad.xcf");
    let map = format!("{told} (. good, # marked)\n  #\n");
    assert!(shown.text().ends_with(&map), "{}", shown.text());
    assert_eq!((shown.status, &shown.stderr), (1, &said));
    folder.xcf("extract bad.xcf 0 s.pam").is(1, "", &said);
    let pixels = Pam::flat(1, 1, "grey", 255).with_marks(&[0]);
    assert_eq!(folder.get("s.pam"), pixels.bytes());
}

/// Of the tags with three digits only those of versions 1 to 3 and 11 are read.
#[test]
fn other_versions_are_refused() {
    let folder = Folder::new();
    let (mut names, mut listings) = (vec!["list".to_string()], String::new());
    for version in (0..1_000).filter(|version| ![1, 2, 3, 11].contains(version)) {
        let tag = format!("v{version:03}");
        folder.put(&tag, &changed(wide(), 9, tag.as_bytes()));
        listings += &format!("{tag}:\nrefused 3 at 9\n");
        names.push(tag);
    }
    folder.run(names).is(1, &listings, "");
}
