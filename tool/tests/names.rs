//! Names that are not UTF-8, and names that would steer a terminal.

mod common;

use std::ffi::OsString;
use std::os::unix::ffi::OsStringExt;

use common::files::{EXAMPLE_LISTING, INDEXED, altered, example, indexed};
use common::text::{COLUMNS, narrow_lines};
use common::{Answer, Folder, Pam};

/// The file "map" with three other bytes for its layer's name.
fn named(name: &[u8; 3]) -> Vec<u8> {
    let mut file = indexed(INDEXED);
    file[89..92].copy_from_slice(name);
    file
}

/// Runs the command with other bytes wherever its words have a star.
fn run(folder: &Folder, words: &str, star: &[u8]) -> Answer {
    let words = words.split_whitespace().map(|word| {
        let parts: Vec<&[u8]> = word.split('*').map(str::as_bytes).collect();
        OsString::from_vec(parts.join(star))
    });
    folder.run(words)
}

/// The lines of the rows that are shown.
#[track_caller]
fn shown_rows(folder: &Folder, file: &str) -> Vec<String> {
    let shown = folder.run(["show", file]);
    assert_eq!((shown.status, shown.stderr.as_str()), (0, ""));
    let lines = narrow_lines(shown.text());
    assert_eq!(lines[1], COLUMNS);
    lines[2..].to_vec()
}

#[test]
fn a_name_that_is_not_utf8_has_a_flag() {
    for (name, flag, shown) in [
        (b"map", "", "map"),
        (b"m\xE4p", ", not UTF-8", "m\\xe4p"),
        (b"\xE4\xF6\xFC", ", not UTF-8", "\\xe4\\xf6\\xfc"),
        (b"ma\xC3", ", not UTF-8", "ma\\xc3"),
        (b"\xA4\xC3\xA4", ", not UTF-8", "\\xa4ä"),
        (b"\xED\xA0\x80", ", not UTF-8", "\\xed\\xa0\\x80"),
        (b"\xC3\xA4\x07", "", "ä\\u{7}"),
        (b"\xE2\x82\xAC", "", "€"),
        (b"a\0\x7F", "", "a\\0\\u{7f}"),
    ] {
        let folder = Folder::with("map.xcf", &named(name));
        let flags = format!("visible, group{flag}");
        let row = format!("0 layer 2x1 indexed 255 0 -1,-2 {flags} 1 0 \"{shown}\"");
        assert_eq!(shown_rows(&folder, "map.xcf"), [row]);
    }
}

/// The flag is a number in the listing; all else is as with any other name.
#[test]
fn a_name_that_is_not_utf8_changes_nothing_else() {
    let folder = Folder::with("latin.xcf", &altered(67, 0xE4));
    folder.put("example.xcf", &example());
    let listing = EXAMPLE_LISTING.replace(" 255 1 0 ", " 255 33 0 ");
    folder.xcf("list latin.xcf").is(0, &listing, "");
    let line = "latin.xcf: accepted, 1 row, 1 tile, none marked\n";
    folder.xcf("check latin.xcf").is(0, line, "");
    folder.xcf("extract latin.xcf 0 latin.pam").is(0, "", "");
    folder.xcf("extract example.xcf 0 s.pam").is(0, "", "");
    assert_eq!(folder.get("latin.pam"), folder.get("s.pam"));
}

/// A folder with two files of the same layers, mask and channels, one of them
/// made of a band of marks; their names have a letter of ASCII or of Latin-1.
fn packed() -> Folder {
    let pixels = Pam::noise(70, 65, "grey");
    let folder = Folder::with("p.pam", &pixels.bytes());
    folder.put("marked.pam", &pixels.with_marks(&[3]).bytes());
    for (file, letter) in [("ascii.xcf", b"a"), ("latin.xcf", b"\xE4")] {
        let words = format!(
            "pack {file} --layer fl*che p.pam --active --mask m*ske p.pam --layer gut p.pam \
             --channel kan*le marked.pam --visible --marks l*cher"
        );
        run(&folder, &words, letter).is(0, "", "");
    }
    folder
}

/// Nothing is said of a name but its bytes.
#[test]
fn a_packed_name_has_the_flag_that_its_bytes_ask_for() {
    let folder = packed();
    let flags = |file| {
        let rows = folder.listing(file).rows.into_iter();
        rows.map(|row| row.fields[11]).collect::<Vec<_>>()
    };
    assert_eq!(flags("ascii.xcf"), [1 + 2 + 8, 0, 1, 1, 0]);
    let latin = [1 + 2 + 8 + 32, 32, 1, 1 + 32, 32];
    assert_eq!(flags("latin.xcf"), latin);
    let awaited = [
        (" visible, apply mask, active, not UTF-8 ", "fl\\xe4che"),
        (" not UTF-8 ", "m\\xe4ske"),
        (" visible ", "gut"),
        (" visible, not UTF-8 ", "kan\\xe4le"),
        (" not UTF-8 ", "l\\xe4cher"),
    ];
    let rows = shown_rows(&folder, "latin.xcf");
    assert_eq!(rows.len(), awaited.len());
    for (row, (flags, name)) in rows.iter().zip(awaited) {
        assert!(row.contains(flags), "{row}");
        assert!(row.ends_with(&format!(" \"{name}\"")), "{row}");
    }
}

/// The files differ in the letters, and in nothing that is extracted.
#[test]
fn a_name_is_packed_as_its_bytes() {
    let folder = packed();
    let files = ["ascii.xcf", "latin.xcf"];
    let [ascii, latin] = files.map(|file| folder.get(file));
    assert_eq!(ascii.len(), latin.len());
    let differing = ascii
        .into_iter()
        .zip(latin)
        .filter(|(one, other)| one != other);
    assert_eq!(differing.collect::<Vec<_>>(), [(b'a', 0xE4); 4]);
    for row in 0..5 {
        let [ascii, latin] = files.map(|file| folder.xcf(&format!("extract {file} {row} -")));
        assert_eq!((ascii.status, latin.status), (0, 0));
        assert!(ascii.stdout == latin.stdout, "{row}");
    }
}

/// Characters of well-formed names that a terminal would obey, or that would hide
/// or turn round what stands beside them.
fn steering() -> Vec<char> {
    let controls = ('\x01'..='\x1F').chain('\x7F'..='\u{9F}');
    let directions = ('\u{200E}'..='\u{200F}')
        .chain('\u{202A}'..='\u{202E}')
        .chain('\u{2066}'..='\u{2069}');
    let others = "\u{AD}\u{61C}\u{200B}\u{200D}\u{2028}\u{2029}\u{2060}\u{FEFF}\u{FFF9}\u{E0041}\
                  \u{E000}\u{FFFF}\u{10FFFF}";
    controls.chain(directions).chain(others.chars()).collect()
}

#[test]
fn no_character_of_a_name_steers_the_terminal() {
    let folder = Folder::with("p.pam", &Pam::flat(1, 1, "grey", 1).bytes());
    let steering = steering();
    assert_eq!(steering.len(), 31 + 33 + 11 + 13);
    for some in steering.chunks(48) {
        let items = some
            .iter()
            .flat_map(|c| ["--layer".into(), format!("a{c}b"), "p.pam".into()]);
        let words = ["pack", "--force", "n.xcf"].map(String::from);
        folder.run(words.into_iter().chain(items)).is(0, "", "");
        let shown = folder.xcf("show n.xcf");
        let text = shown.text();
        assert!(text.chars().all(|c| c == '\n' || (' '..='~').contains(&c)));
        assert_eq!(text.lines().count(), 2 + some.len());
        for (line, c) in text.lines().skip(2).zip(some) {
            let escaped = match c {
                '\t' => "\\t".to_string(),
                '\n' => "\\n".to_string(),
                '\r' => "\\r".to_string(),
                _ => format!("\\u{{{:x}}}", *c as u32),
            };
            assert!(line.ends_with(&format!(" \"a{escaped}b\"")), "{line}");
            assert!(!line.contains("not UTF-8"), "{line}");
        }
    }
}

/// Nor do the bytes of one that is no UTF-8, nor names in messages.
#[test]
fn no_byte_of_a_name_steers_the_terminal() {
    let folder = Folder::with("p.pam", &Pam::flat(1, 1, "grey", 1).bytes());
    let (name, shown) = (b"\x9B2J\x1B[2J", "\"\\x9b2J\\u{1b}[2J\"");
    run(&folder, "pack n.xcf --layer * p.pam", name).is(0, "", "");
    let rows = shown_rows(&folder, "n.xcf");
    assert!(rows[0].ends_with(&format!(" visible, not UTF-8 1 0 {shown}")));
    for (name, shown) in [
        (&name[..], shown),
        ("\u{9B}\u{202E}".as_bytes(), "\"\\u{9b}\\u{202e}\""),
    ] {
        let packed = run(&folder, "pack o.xcf --layer * p.pam --mode 22", name);
        packed.fails(1, &["refused 17 at 0", &format!("the layer {shown}\n")]);
    }
}
