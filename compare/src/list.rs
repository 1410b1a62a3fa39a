//! The reference: the listing of a file, and what is answered beside it.

use crate::answer::{FILE_TOO_LONG, LIST_LIMIT, ListAnswer, ROW_LENGTH, ReadAnswer, TABLE_LENGTH};
use crate::decode::count_marked;
use crate::read::read;

/// A text of this length holds any listing.
pub const TEXT_LENGTH: usize = 65_536;

/// What the listing program prints for a file.
pub fn list(file: &[u8]) -> String {
    if file.len() > LIST_LIMIT {
        return refusal(&ReadAnswer::refused(FILE_TOO_LONG, 0));
    }
    listing(file, &mut vec![0; TABLE_LENGTH]).1
}

/// Puts the listing of a file of any length at a text's start.
pub fn list_into(file: &[u8], table: &mut [u32], text: &mut [u8]) -> ListAnswer {
    if table.len() != TABLE_LENGTH || text.len() < TEXT_LENGTH {
        return ListAnswer::not_listed();
    }
    let (answer, listing, marked) = listing(file, table);
    text[..listing.len()].copy_from_slice(listing.as_bytes());
    ListAnswer::listed(answer, marked, listing.len())
}

/// What the reader answers, the listing, and how many tiles are marked: a line
/// for the image and one for each row, or only the refusal.
fn listing(file: &[u8], table: &mut [u32]) -> (ReadAnswer, String, u64) {
    let answer = read(file, table);
    if answer.number != 0 {
        return (answer, refusal(&answer), 0);
    }
    let (mut text, mut marked_tiles) = (image_line(&answer), 0);
    let [compression, pointer_size] = answer.form();
    for row in 0..answer.rows as u32 {
        let counted = count_marked(file, table, row, compression, pointer_size);
        assert_eq!(counted.number, 0, "what was read can be decoded");
        text += &row_line(table, row, counted.marked);
        marked_tiles += counted.marked;
    }
    (answer, text, marked_tiles)
}

fn refusal(answer: &ReadAnswer) -> String {
    format!("refused {} at {}\n", answer.number, answer.place)
}

fn image_line(answer: &ReadAnswer) -> String {
    let ReadAnswer { width, height, .. } = answer;
    format!(
        "canvas {width} {height} base {} version {} compression {} rows {}\n",
        answer.base, answer.version, answer.compression, answer.rows
    )
}

/// A row's number, kind, fields 1 to 15 and how many of its tiles are marked.
fn row_line(table: &[u32], row: u32, marked: u64) -> String {
    let start = row as usize * ROW_LENGTH;
    let (kind, fields) = table[start..start + ROW_LENGTH]
        .split_first()
        .expect("a row has a kind");
    let kind = match kind {
        1 => "layer",
        2 => "mask",
        _ => "channel",
    };
    let fields: Vec<String> = fields.iter().map(u32::to_string).collect();
    format!("{row} {kind} {} bad {marked}\n", fields.join(" "))
}
