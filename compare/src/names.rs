//! Random names, well-formed as UTF-8 or not.

use crate::random::Random;

/// The flag of a row whose name is not well-formed UTF-8. Not shared with the
/// reference: a mistake there must not be one in the names that test it.
pub const NOT_UTF8: u32 = 32;

/// The first and the last character of each length, and those beside the
/// surrogates.
const EDGES: [char; 10] = [
    '\0',
    '\u{7F}',
    '\u{80}',
    '\u{7FF}',
    '\u{800}',
    '\u{D7FF}',
    '\u{E000}',
    '\u{FFFF}',
    '\u{10000}',
    '\u{10FFFF}',
];

/// Bytes that are no characters, alone and between characters.
const BROKEN: [&[u8]; 16] = [
    // Letters of Latin-1, and bytes that only stand behind others.
    b"\xE4",
    b"\xFF",
    b"\x80",
    b"\xBF",
    // Characters that have a shorter form.
    b"\xC0\x80",
    b"\xC1\xBF",
    b"\xE0\x9F\xBF",
    b"\xF0\x8F\xBF\xBF",
    // The first and the last surrogate, and what is above the last character.
    b"\xED\xA0\x80",
    b"\xED\xBF\xBF",
    b"\xF4\x90\x80\x80",
    b"\xF5\x80\x80\x80",
    // Characters that are cut.
    b"\xC3",
    b"\xE2\x82",
    b"\xF0\x9F",
    b"\xF0\x9F\x96",
];

/// The flag that a row with the name has.
pub fn name_flag(name: &[u8]) -> u32 {
    match str::from_utf8(name) {
        Ok(_) => 0,
        Err(_) => NOT_UTF8,
    }
}

/// A name of so many bytes: text, text with something broken in it, or any
/// bytes.
pub fn random_name(random: &mut Random, length: usize) -> Vec<u8> {
    match random.below(8) {
        0..=3 => text(random, length),
        4..=6 => broken_text(random, length),
        _ => random.bytes(length),
    }
}

/// So many bytes of text with something broken in it.
fn broken_text(random: &mut Random, length: usize) -> Vec<u8> {
    let broken = random.pick(&BROKEN);
    let broken = &broken[..broken.len().min(length)];
    let rest = length - broken.len();
    let before = random.between(0, rest);
    [&text(random, before), broken, &text(random, rest - before)].concat()
}

/// So many bytes of text, in ASCII or with longer characters.
fn text(random: &mut Random, length: usize) -> Vec<u8> {
    let limit = random.pick(&[0x80, 0x800, 0x1_0000, 0x11_0000]);
    let mut text = String::with_capacity(length);
    while text.len() < length {
        let next = random_char(random, limit);
        let fits = text.len() + next.len_utf8() <= length;
        text.push(if fits { next } else { 'n' });
    }
    text.into_bytes()
}

/// A character of ASCII or below the limit, or one at an edge.
fn random_char(random: &mut Random, limit: usize) -> char {
    match random.below(8) {
        0 if limit > 0x80 => random.pick(&EDGES),
        1..=4 => random.below(0x80) as u8 as char,
        // A surrogate is no character.
        _ => char::from_u32(random.below(limit) as u32).unwrap_or('\u{D7FF}'),
    }
}
