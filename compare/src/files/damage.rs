//! Damage to files, with refusals that are not known beforehand.

use super::block::{Field, FieldKind, set_word, word_at};
use super::builder::BuiltFile;
use crate::random::Random;

/// Cuts the file short, anywhere or about a field.
pub fn cut(random: &mut Random, built: &mut BuiltFile) {
    if random.one_in(3) {
        built.bytes.truncate(random.below(built.bytes.len()));
    } else {
        let index = random.below(built.fields.len());
        cut_at(random, built, index);
    }
}

/// Cuts the file within or next to the field, or up to two fields later.
pub fn cut_at(random: &mut Random, built: &mut BuiltFile, index: usize) {
    let last = built.fields.len() - 1;
    let field = built.fields[(index + random.below(3)).min(last)];
    let length = field.place + random.below(field.length + 2);
    built.bytes.truncate(length);
}

/// Flips a bit of a byte, or sets the byte.
pub fn change_byte(random: &mut Random, built: &mut BuiltFile) {
    let length = built.bytes.len().min(random.pick(&[50, 300, 100_000]));
    let byte = &mut built.bytes[random.below(length)];
    match random.below(3) {
        0 => *byte ^= 1 << random.below(8),
        1 => *byte = random.byte(),
        _ => *byte = random.pick(&[0, 1, 2, 17, 255]),
    }
}

/// Writes a word of note over any four bytes.
pub fn change_word(random: &mut Random, built: &mut BuiltFile) {
    let length = built.bytes.len().min(random.pick(&[80, 400, 100_000]));
    let place = random.below(length);
    let value = word_of_note(random, built);
    set_word(&mut built.bytes, place, value);
}

/// Writes a number of note, a neighbour of the old one, or random bytes over a
/// field.
pub fn change_field(random: &mut Random, built: &mut BuiltFile, index: usize) {
    let field = built.fields[index];
    if ![4, 8].contains(&field.length) {
        let bytes = random.bytes(field.length);
        built.bytes[field.place..field.place + field.length].copy_from_slice(&bytes);
        return;
    }
    let old = field.number(&built.bytes);
    let note = u64::from(word_of_note(random, built));
    let last = u64::MAX - random.below(9) as u64;
    let value = match random.below(6) {
        0 => old.wrapping_add(1),
        1 => old.wrapping_sub(1),
        // These differ in eight bytes, and not in four.
        2 => random.pick(&[1 << 32, 1 << 32 | old, 1 << 32 | note, last]),
        _ => note,
    };
    field.set(&mut built.bytes, value);
}

/// Inserts or removes up to eight bytes, so that what follows moves.
pub fn shift(random: &mut Random, built: &mut BuiltFile) {
    let place = match random.below(3) {
        0 => random.below(built.bytes.len()),
        _ => random.pick(&built.fields).place,
    };
    let count = random.pick(&[1, 3, 4, 4, 8]);
    if random.one_in(2) {
        let any = random.word().to_be_bytes();
        let bytes = random.pick(&[[0; 8], [0xFF; 8], any]);
        built
            .bytes
            .splice(place..place, bytes.into_iter().take(count));
    } else {
        let end = (place + count).min(built.bytes.len());
        built.bytes.drain(place..end);
    }
}

/// The index of a field; each kind that the file has is as likely.
pub fn pick_field(random: &mut Random, fields: &[Field]) -> usize {
    let mut kinds: Vec<FieldKind> = fields.iter().map(|field| field.kind).collect();
    kinds.sort();
    kinds.dedup();
    let kind = random.pick(&kinds);
    let of_kind = |&index: &usize| fields[index].kind == kind;
    let indexes: Vec<usize> = (0..fields.len()).filter(of_kind).collect();
    random.pick(&indexes)
}

/// Limits and their neighbours, places about the file's end, and the file's
/// own words and places.
fn word_of_note(random: &mut Random, built: &BuiltFile) -> u32 {
    let length = built.bytes.len() as u32;
    let field = random.pick(&built.fields);
    match random.below(4) {
        0 => random.pick(&[0, 1, 2, 3, 4, 5, 6, 8, 17, 255, 256, 257]),
        1 => random.pick(&[16_384, 16_385, 1 << 31, u32::MAX - 3, u32::MAX]),
        2 => random.pick(&[length - 4, length - 3, length - 1, length, length + 1]),
        _ if field.length == 4 && random.one_in(2) => word_at(&built.bytes, field.place),
        _ => field.place as u32,
    }
}
