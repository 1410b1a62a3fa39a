//! `xcf list`.

mod common;

use common::files::{EXAMPLE_LISTING, altered, empty, example, wide};
use common::refusals::refused_files;
use common::{Folder, Pam};

/// Where the fields begin that the walk over the example reads, up to the tile's
/// pointer.
const FIELDS: [usize; 34] = [
    0, 9, 14, 18, 22, 26, 30, 34, 35, 39, 43, 47, 51, 55, 59, 63, 67, 69, 73, 77, 81, 85, 89, 93,
    97, 101, 105, 109, 113, 117, 121, 125, 129, 133,
];

/// The same in version 11.
const WIDE_FIELDS: [usize; 35] = [
    0, 9, 14, 18, 22, 26, 30, 34, 38, 39, 43, 47, 55, 63, 71, 75, 79, 83, 85, 89, 93, 97, 101, 105,
    109, 113, 117, 125, 129, 133, 137, 145, 153, 157, 161,
];

#[test]
fn the_example_is_listed() {
    let folder = Folder::with("example.xcf", &example());
    folder.xcf("list example.xcf").is(0, EXAMPLE_LISTING, "");
}

#[test]
fn standard_input_is_listed() {
    let listed = Folder::new().xcf_from("list -", &example());
    listed.is(0, EXAMPLE_LISTING, "");
}

#[test]
fn a_file_without_rows_is_listed() {
    let folder = Folder::with("empty.xcf", &empty());
    let listing = "canvas 1 1 base 1 version 0 compression 1 rows 0\n";
    folder.xcf("list empty.xcf").is(0, listing, "");
}

#[test]
fn a_marked_tile_is_counted_and_is_status_1() {
    let listing = EXAMPLE_LISTING.replace("bad 0", "bad 1");
    let folder = Folder::new();
    folder.put("run.xcf", &altered(141, 2));
    folder.put("cut.xcf", &example()[..142]);
    folder.xcf("list run.xcf").is(1, &listing, "");
    folder.xcf("list cut.xcf").is(1, &listing, "");
}

#[test]
fn a_refusal_stands_alone() {
    let folder = Folder::new();
    for (file, said) in refused_files() {
        folder.put("bad.xcf", &file);
        let (refusal, _) = said.split_once(':').expect("a colon");
        folder
            .xcf("list bad.xcf")
            .is(1, &format!("{refusal}\n"), "");
    }
}

#[test]
fn several_files_have_their_names_above() {
    let folder = Folder::with("good.xcf", &example());
    folder.put("bad.xcf", &altered(0, 0));
    let good = format!("good.xcf:\n{EXAMPLE_LISTING}");
    let listed = folder.xcf("list good.xcf good.xcf");
    listed.is(0, &format!("{good}{good}"), "");
    let listed = folder.xcf("list bad.xcf good.xcf");
    listed.is(1, &format!("bad.xcf:\nrefused 2 at 0\n{good}"), "");
}

#[test]
fn a_name_above_a_listing_is_one_line() {
    let folder = Folder::with("two\nlines", &example());
    let good = format!("two\\nlines:\n{EXAMPLE_LISTING}");
    folder
        .run(["list", "two\nlines", "two\nlines"])
        .is(0, &good.repeat(2), "");
}

#[test]
fn every_cut_of_the_example_is_refused_at_its_place() {
    cuts_are_refused(&example(), &FIELDS, 137);
    cuts_are_refused(&wide(), &WIDE_FIELDS, 169);
}

/// Cuts a file everywhere before its tile, whose pointer ends at a place.
#[track_caller]
fn cuts_are_refused(file: &[u8], fields: &[usize], pointer_end: usize) {
    let folder = Folder::new();
    let mut listings = String::new();
    let (last, lengths) = (fields[fields.len() - 1], 0..=file.len() - 2);
    for length in lengths.clone() {
        let name = format!("cut-{length}.xcf");
        folder.put(&name, &file[..length]);
        let refusal = match length < pointer_end {
            true => format!("1 at {}", field_at(fields, length)),
            // The tile's pointer is there, and leads past the end.
            false => format!("13 at {last}"),
        };
        listings += &format!("{name}:\nrefused {refusal}\n");
    }
    let names = lengths.map(|length| format!("cut-{length}.xcf"));
    let listed = folder.run(["list".to_string()].into_iter().chain(names));
    listed.is(1, &listings, "");
}

/// The start of the field that has the byte.
fn field_at(fields: &[usize], byte: usize) -> usize {
    let before = fields.iter().filter(|start| **start <= byte);
    *before.max().expect("the first is 0")
}

/// The limit of 32,768 bytes is the small program's (RULES, "Listing").
#[test]
fn a_file_over_32768_bytes_is_listed() {
    let folder = Folder::with_layer("large.xcf", &Pam::noise(300, 200, "red green blue"));
    assert!(folder.get("large.xcf").len() > 180_000);
    let listing = "canvas 300 200 base 0 version 0 compression 1 rows 1\n\
                   0 layer 300 200 3 0 71 3 75 171 20 255 1 0 0 0 0 bad 0\n";
    folder.xcf("list large.xcf").is(0, listing, "");
}

#[test]
fn a_file_that_cannot_be_read_does_not_stop_the_others() {
    let folder = Folder::with("example.xcf", &example());
    let listed = folder.xcf("list none.xcf example.xcf");
    assert_eq!(listed.status, 2);
    assert_eq!(listed.stderr, "xcf: none.xcf: no such file or folder\n");
    let good = format!("example.xcf:\n{EXAMPLE_LISTING}");
    assert!(listed.text().ends_with(&good), "{listed:?}");
}
