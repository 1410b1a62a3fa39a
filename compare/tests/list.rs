//! Compares the library's listings with the reference's: equal answers, equal
//! tables, equal texts, what stands behind the listing among them.

use xcf_compare::answer::{
    BAD_TILE_POINTER, FILE_LIMIT, FILE_TOO_LONG, LIST_LIMIT, List, ListAnswer, PAST_END,
    TABLE_LENGTH, WRONG_LENGTH,
};
use xcf_compare::cases::drawable::{self, Kind as DrawableKind};
use xcf_compare::files::laid::version_11;
use xcf_compare::files::{EXAMPLE, random_case};
use xcf_compare::guard::Guarded;
use xcf_compare::list::{TEXT_LENGTH, list, list_into};
use xcf_compare::random::Random;
use xcf_compare::{library, report};

const SEED: u64 = 0x6C69_7374_0000_0001;
const FILES: usize = 10_000;
const DAMAGED_FILES: usize = 4_000;

/// Lists with both and asserts that all is equal; gives the answer and the
/// listing.
fn list_both(file: &[u8], table: &[u32], text: &[u8]) -> (ListAnswer, String) {
    let run = |list: List| {
        let (mut table, mut text) = (Guarded::new(table), Guarded::new(text));
        let answer = list(file, table.lent(), text.lent());
        (answer, table, text)
    };
    let (expected, table, mut text) = run(list_into);
    let (given, their_table, their_text) = run(library::list);
    assert_eq!(given, expected, "file {file:02X?}");
    assert_eq!(their_table.difference(&table), None, "file {file:02X?}");
    assert_eq!(their_text.difference(&text), None, "file {file:02X?}");
    let listing = text.lent()[..expected.length as usize].to_vec();
    (expected, String::from_utf8(listing).expect("ASCII"))
}

/// Holds the listing to the small program's, where that lists the file.
fn assert_printed(file: &[u8], listing: &str) {
    assert!(file.len() > LIST_LIMIT || listing == list(file));
}

#[test]
fn files_agree() {
    let mut random = Random::new(SEED);
    let text = random.bytes(TEXT_LENGTH + 3);
    let (mut accepted, mut refused, mut unlisted, mut longest) = (0, 0, 0, 0);
    let (mut version_11, mut far) = (0, 0);
    for _ in 0..FILES {
        let case = random_case(&mut random);
        let (answer, listing) = list_both(&case.file, &case.table, &text);
        if answer.number != 0 {
            unlisted += 1;
            continue;
        }
        assert_printed(&case.file, &listing);
        accepted += usize::from(answer.refused == 0);
        refused += usize::from(answer.refused != 0);
        version_11 += usize::from(listing.contains(" version 11 "));
        far += usize::from(answer.at >= 1 << 32);
        longest = longest.max(listing.len());
    }
    report(&format!(
        "list: {FILES} files, {accepted} accepted, {version_11} of them of version 11, {refused} \
         refused, {far} of them beyond 32 bits, {unlisted} with a table of another length, a \
         listing of {longest} bytes"
    ));
    assert!(accepted >= 2_000 && refused >= 2_000 && unlisted >= 50 && longest >= 8_000);
    assert!(version_11 >= 600 && far >= 100);
}

/// The marked tiles of all rows are counted.
#[test]
fn damaged_files_agree() {
    let mut random = Random::new(SEED ^ 1);
    let (text, mut marked) = (vec![0xA5; TEXT_LENGTH], Vec::new());
    for _ in 0..DAMAGED_FILES {
        let case = drawable::case(&mut random, DrawableKind::Damaged);
        let (answer, listing) = list_both(&case.file, &vec![0xA5; TABLE_LENGTH], &text);
        assert_printed(&case.file, &listing);
        let counts = listing.lines().filter_map(|line| line.split_once(" bad "));
        let counts: Vec<u64> = counts.map(|(_, n)| n.parse().expect("a number")).collect();
        assert_eq!(counts.iter().sum::<u64>(), answer.marked);
        if counts.iter().filter(|count| **count > 0).count() >= 2 {
            marked.push(answer.marked);
        }
    }
    report(&format!(
        "list: {DAMAGED_FILES} damaged files, {} with marked tiles in several rows",
        marked.len()
    ));
    assert!(marked.len() >= 100);
}

/// The call's own refusal, of any file: every other number is 0, and table and
/// text stay as lent.
fn assert_not_listed(file: &[u8], table: usize, text: usize) {
    let refusal = ListAnswer {
        number: WRONG_LENGTH,
        ..Default::default()
    };
    for list in [list_into, library::list] {
        let (mut lent_table, mut lent_text) = (vec![7; table], vec![0xA5; text]);
        assert_eq!(list(file, &mut lent_table, &mut lent_text), refusal);
        assert!(lent_table.iter().all(|number| *number == 7));
        assert!(lent_text.iter().all(|byte| *byte == 0xA5));
    }
}

/// A text that is too short, or a table of another length.
#[test]
fn lengths() {
    let cut = &EXAMPLE[..140];
    let too_long = vec![0; FILE_LIMIT + 1];
    for file in [&EXAMPLE[..], cut, &[], &too_long] {
        assert_not_listed(file, TABLE_LENGTH, TEXT_LENGTH - 1);
        assert_not_listed(file, TABLE_LENGTH, 0);
        for table in [0, TABLE_LENGTH - 1, TABLE_LENGTH + 1] {
            assert_not_listed(file, table, TEXT_LENGTH);
            assert_not_listed(file, table, 1);
        }
    }
}

/// The verdict is the reader's number and place, and its line is the listing.
#[test]
fn verdicts() {
    let (table, text) = (vec![7; TABLE_LENGTH], vec![0xA5; TEXT_LENGTH]);
    let (answer, listing) = list_both(&EXAMPLE[..140], &table, &text);
    let verdict = ListAnswer {
        refused: BAD_TILE_POINTER,
        at: 133,
        length: 18,
        ..Default::default()
    };
    assert_eq!((answer, listing.as_str()), (verdict, "refused 13 at 133\n"));
}

/// In version 11 places have up to 20 digits.
#[test]
fn far_verdicts() {
    let (table, text) = (vec![7; TABLE_LENGTH], vec![0xA5; TEXT_LENGTH]);
    for (place, line) in [
        (1 << 32, "refused 1 at 4294967296\n"),
        (10_u64.pow(19), "refused 1 at 10000000000000000000\n"),
        (u64::MAX, "refused 1 at 18446744073709551615\n"),
    ] {
        let file = version_11::with_pointers(&version_11::example(), &[(55, place)]);
        let (answer, listing) = list_both(&file, &table, &text);
        let verdict = ListAnswer {
            refused: PAST_END,
            at: place,
            length: line.len() as u64,
            ..Default::default()
        };
        assert_eq!((answer, listing.as_str()), (verdict, line));
    }
}

/// The limit is the reader's, not the small program's.
#[test]
fn limits() {
    let (table, text) = (vec![7; TABLE_LENGTH], vec![0xA5; TEXT_LENGTH]);
    let mut file = EXAMPLE.to_vec();
    file.resize(LIST_LIMIT + 1, 0);
    let (answer, listing) = list_both(&file, &table, &text);
    assert_eq!((answer.refused, listing), (0, list(&EXAMPLE)));
    file.resize(FILE_LIMIT + 1, 0);
    let (mut table_after, mut text_after) = (table.clone(), text.clone());
    let answer = library::list(&file, &mut table_after, &mut text_after);
    let verdict = ListAnswer {
        refused: FILE_TOO_LONG,
        length: 16,
        ..Default::default()
    };
    assert_eq!((answer, &table_after), (verdict, &table));
    assert_eq!(&text_after[..17], b"refused 15 at 0\n\xA5");
    file.pop();
    let answer = library::list(&file, &mut table_after, &mut text_after);
    assert_eq!((answer.number, answer.refused, answer.marked), (0, 0, 0));
}
