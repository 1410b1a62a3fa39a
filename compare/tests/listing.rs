//! The listing by the reference: the rules' example, and the files for the
//! listing programs, as they are stored with these.

use std::fs;
use std::path::Path;

use xcf_compare::files::EXAMPLE;
use xcf_compare::files::laid::{version_11, with};
use xcf_compare::folder;
use xcf_compare::list::list;
use xcf_compare::list_cases::{ListCase, arguments, build, expected};

const EXAMPLE_LISTING: &str = "\
canvas 1 1 base 1 version 0 compression 1 rows 1
0 channel 1 1 1 2 67 1 69 133 1 255 1 0 0 0 0 bad 0
";

#[test]
fn the_example() {
    assert_eq!(list(&EXAMPLE), EXAMPLE_LISTING);
    // The tile is cut short.
    let marked = EXAMPLE_LISTING.replace("bad 0", "bad 1");
    assert_eq!(list(&EXAMPLE[..142]), marked);
}

#[test]
fn the_example_in_version_11() {
    let listing = "canvas 1 1 base 1 version 11 compression 1 rows 1\n\
                   0 channel 1 1 1 2 83 1 85 161 1 255 1 0 0 0 0 bad 0\n";
    assert_eq!(list(&version_11::example()), listing);
}

#[test]
fn refusals() {
    assert_eq!(list(&[]), "refused 1 at 0\n");
    assert_eq!(list(&EXAMPLE[..141]), "refused 13 at 133\n");
    let far = with(&EXAMPLE, &[(47, u32::MAX)]);
    assert_eq!(list(&far), "refused 1 at 4294967295\n");
}

/// Longer input is not looked at, good or bad.
#[test]
fn length_limit() {
    let mut input = EXAMPLE.to_vec();
    input.resize(32_768, 0xFF);
    assert_eq!(list(&input), EXAMPLE_LISTING);
    input.push(0xFF);
    assert_eq!(list(&input), "refused 15 at 0\n");
    assert_eq!(list(&[0; 32_768]), "refused 2 at 0\n");
    assert_eq!(list(&[0; 32_769]), "refused 15 at 0\n");
}

/// The listing of the file with the name.
fn listing(cases: &[ListCase], name: &str) -> String {
    let case = cases.iter().find(|case| case.name == format!("{name}.xcf"));
    list(&case.expect("a file with this name").file)
}

#[test]
fn every_number_is_there() {
    let cases = build();
    for (number, place) in [
        (1, 97),
        (2, 0),
        (3, 9),
        (4, 14),
        (5, 22),
        (6, 73),
        (7, 77),
        (8, 226),
        (9, 106),
        (10, 67),
        (12, 71),
        (13, 130),
        (15, 0),
        (16, 98),
        (25, 26),
    ] {
        let given = listing(&cases, &format!("refused_{number:02}"));
        assert_eq!(given, format!("refused {number} at {place}\n"));
    }
}

#[test]
fn every_version_is_there() {
    let cases = build();
    for (version, base, compression) in [
        (0, 0, 0),
        (0, 0, 1),
        (1, 2, 0),
        (1, 2, 1),
        (2, 1, 0),
        (2, 1, 1),
        (3, 0, 0),
        (3, 0, 1),
        (11, 2, 1),
    ] {
        let how = ["plain", "encoded"][compression];
        let given = listing(&cases, &format!("accepted_v{version}_{how}"));
        let form = format!("base {base} version {version} compression {compression}");
        assert!(given.starts_with(&format!("canvas 20 7 {form} rows ")));
        assert_eq!(given.contains(" mask "), compression == 1);
        assert!(given.lines().skip(1).all(|line| line.ends_with(" bad 0")));
    }
}

/// The places of pointers of 4 and of 8 bytes.
#[test]
fn far_pointers_are_there() {
    let cases = build();
    for (name, place) in [
        ("far_pointer", 4_000_000_000),
        ("last_place", 18_446_744_073_709_551_615_u64),
    ] {
        let given = listing(&cases, &format!("refused_{name}"));
        assert_eq!(given, format!("refused 1 at {place}\n"));
    }
}

#[test]
fn marked_tiles_are_there() {
    let cases = build();
    for (name, marked) in [
        ("marked_20", "2"),
        ("marked_21", "2"),
        ("overlapping", "222"),
        ("several_tiles", "20"),
        ("tiles_plain", "01"),
        ("window_limit", "01"),
    ] {
        let given = listing(&cases, &format!("accepted_{name}"));
        let counts = given.lines().skip(1).map(|line| &line[line.len() - 1..]);
        assert_eq!(counts.collect::<String>(), marked, "{name}");
    }
}

/// The names of all that lies in a folder, sorted.
fn names_in(folder: &Path) -> Vec<String> {
    let entries = fs::read_dir(folder).unwrap();
    let mut names: Vec<String> = entries
        .map(|entry| entry.unwrap().file_name().into_string().unwrap())
        .collect();
    names.sort();
    names
}

/// The stored files of the program `xcf_list_cases` are what the reference
/// gives, and no others lie with them.
#[test]
fn stored_files_are_the_references() {
    let folder = folder::of_crate("xcf_list_cases");
    let data = folder.join("data");
    let cases = build();
    let names: Vec<&str> = cases.iter().map(|case| &case.name[..]).collect();
    assert_eq!(names_in(&data), names);
    for case in &cases {
        let stored = fs::read(data.join(&case.name)).unwrap();
        assert!(stored == case.file, "{}", case.name);
    }
    let stored = |name| fs::read_to_string(folder.join(name)).unwrap();
    assert_eq!(stored("args"), arguments(&cases));
    assert!(stored("stdout") == expected(&cases));
}

/// The program `xcf_list` is run with the example.
#[test]
fn stored_example() {
    let folder = folder::of_crate("xcf_list");
    let stored = |name| fs::read(folder.join(name)).unwrap();
    assert_eq!(stored("stdin"), EXAMPLE);
    assert_eq!(stored("stdout"), EXAMPLE_LISTING.as_bytes());
}

/// The names suit every system, and the files can be kept beside the program.
#[test]
fn files_are_small() {
    let cases = build();
    let plain = |byte: u8| byte.is_ascii_alphanumeric() || b"_.".contains(&byte);
    assert!(cases.len() <= 60 && cases.is_sorted_by(|one, other| one.name < other.name));
    assert!(cases.iter().all(|case| case.name.len() <= 40));
    assert!(cases.iter().all(|case| case.name.bytes().all(plain)));
    assert!(cases.iter().map(|case| case.file.len()).sum::<usize>() < 200_000);
    let small = cases.iter().filter(|case| case.file.len() < 3_000);
    assert_eq!(small.count(), cases.len() - 3);
    assert!(expected(&cases).contains(&format!("accepted_example.xcf\n{EXAMPLE_LISTING}")));
}
