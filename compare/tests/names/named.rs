//! Names with the answers written out, of layers, masks and channels, read and
//! written.

use xcf_compare::implementation::ALL;

use crate::full::{FORMS, Full};

/// Asserts, with all, that names are well-formed, or that they are not.
fn assert_well_formed(is_utf8: bool, names: &[&[u8]]) {
    for name in names {
        // The rows' flags come from Rust's rule.
        assert_eq!(str::from_utf8(name).is_ok(), is_utf8, "{name:02X?}");
        for by in ALL {
            for form in &FORMS {
                Full::new(&[name]).assert_read(form, &by);
            }
            Full::new(&[name]).assert_written(&by);
        }
    }
}

/// The length in a file is 0 or 1.
#[test]
fn the_empty_name() {
    assert_well_formed(true, &[b""]);
}

/// A zero byte is a character like any other, and ends nothing.
#[test]
fn zero_bytes() {
    assert_well_formed(true, &[b"\0", b"\0\0\0\0", b"a\0b", b"\0\xC3\xA4\0"]);
    assert_well_formed(false, &[b"\0\xE4", b"a\0\x80", b"\0\0\0\xFF\0"]);
}

#[test]
fn ascii() {
    assert_well_formed(
        true,
        &[b"s", b"Background", b"\x01\x1B\x7F", &[b'n'; 1_024]],
    );
}

#[test]
fn latin_1() {
    assert_well_formed(false, &[b"\xE4", b"Fl\xE4che", b"\xA9 1998", b"na\xEFve"]);
    assert_well_formed(true, &["ä", "Fläche", "© 1998", "naïve"].map(str::as_bytes));
    // Two letters that are a character of UTF-8.
    assert_well_formed(true, &[b"\xC3\xA4", b"\xC2\xA9"]);
}

/// The first and the last character of each length.
#[test]
fn lengths() {
    assert_well_formed(true, &[b"\x7F", b"\xC2\x80", b"\xDF\xBF"]);
    assert_well_formed(true, &[b"\xE0\xA0\x80", b"\xEF\xBF\xBF"]);
    assert_well_formed(true, &[b"\xF0\x90\x80\x80", b"\xF4\x8F\xBF\xBF"]);
}

/// Forms of characters that have a shorter one.
#[test]
fn overlong_forms() {
    assert_well_formed(false, &[b"\xC0\x80", b"\xC0\xAF", b"\xC1\xBF"]);
    assert_well_formed(false, &[b"\xE0\x80\x80", b"\xE0\x80\xAF", b"\xE0\x9F\xBF"]);
    assert_well_formed(false, &[b"\xF0\x80\x80\x80", b"\xF0\x8F\xBF\xBF"]);
}

#[test]
fn surrogates() {
    assert_well_formed(false, &[b"\xED\xA0\x80", b"\xED\xAF\xBF"]);
    assert_well_formed(false, &[b"\xED\xB0\x80", b"\xED\xBF\xBF"]);
    // A pair of them is no character either.
    assert_well_formed(false, &[b"\xED\xA0\x80\xED\xB0\x80"]);
    // U+D7FF and U+E000 are beside them.
    assert_well_formed(true, &[b"\xED\x9F\xBF", b"\xEE\x80\x80"]);
}

/// U+10FFFF is the last character.
#[test]
fn above_the_last_character() {
    assert_well_formed(true, &[b"\xF4\x8F\xBF\xBF"]);
    assert_well_formed(false, &[b"\xF4\x90\x80\x80", b"\xF4\xBF\xBF\xBF"]);
    assert_well_formed(false, &[b"\xF5\x80\x80\x80", b"\xF7\xBF\xBF\xBF"]);
    assert_well_formed(false, &[b"\xF8\x88\x80\x80\x80", b"\xFB\xBF\xBF\xBF\xBF"]);
    assert_well_formed(false, &[b"\xFC\x84\x80\x80\x80\x80", b"\xFE", b"\xFF"]);
}

/// U+FFFF, U+FFFE, U+FDD0 and U+1FFFF mean nothing, and are well-formed; so is
/// the mark of the bytes' order, U+FEFF.
#[test]
fn noncharacters() {
    assert_well_formed(true, &[b"\xEF\xBF\xBF", b"\xEF\xBF\xBE"]);
    assert_well_formed(true, &[b"\xEF\xB7\x90", b"\xF0\x9F\xBF\xBF"]);
    assert_well_formed(true, &[b"\xEF\xBB\xBF", b"\xEF\xBB\xBFa"]);
}

/// Bytes that only stand behind others, with nothing before them.
#[test]
fn lone_tails() {
    assert_well_formed(false, &[b"\x80", b"\xBF", b"a\x80", b"\x80a"]);
    assert_well_formed(false, &[b"\xC3\xA4\xA4", b"\xE2\x82\xAC\xAC"]);
    assert_well_formed(false, &[b"\xF0\x9F\x96\x8A\x8A"]);
}

/// The last character lacks bytes. In a file the zero that closes the name
/// follows, which is no part of it; names that are lent follow each other.
#[test]
fn cut_last_characters() {
    assert_well_formed(false, &[b"\xC3", b"pen \xC3"]);
    assert_well_formed(false, &[b"\xE2", b"\xE2\x82", b"pen \xE2", b"pen \xE2\x82"]);
    assert_well_formed(false, &[b"\xF0", b"\xF0\x9F", b"\xF0\x9F\x96"]);
    assert_well_formed(false, &[b"pen \xF0", b"pen \xF0\x9F", b"pen \xF0\x9F\x96"]);
    assert_well_formed(true, &["pen ä", "pen €", "pen 🖊"].map(str::as_bytes));
}

/// A byte of ASCII, a zero or another first byte stands within a character.
#[test]
fn cut_in_the_middle() {
    assert_well_formed(false, &[b"\xC3a", b"\xC3a\xA4", b"\xC3\0", b"\xC3\0\xA4"]);
    assert_well_formed(false, &[b"\xE2a\xAC", b"\xE2\x82a", b"\xE2\x82a\xAC"]);
    assert_well_formed(
        false,
        &[b"\xF0a\x96\x8A", b"\xF0\x9Fa\x8A", b"\xF0\x9F\x96a"],
    );
    assert_well_formed(
        false,
        &[b"\xC3\xC3\xA4", b"\xE2\xC3\xA4", b"\xF0\x9F\xC3\xA4"],
    );
}

/// Behind a first byte stand bytes from 80 to BF: 7F and C0 are beside them.
#[test]
fn beside_the_bytes_behind() {
    assert_well_formed(true, &[b"\xC3\x80", b"\xC3\xBF"]);
    assert_well_formed(false, &[b"\xC3\x7F", b"\xC3\xC0"]);
    assert_well_formed(true, &[b"\xE2\x80\xBF", b"\xE2\xBF\x80"]);
    assert_well_formed(false, &[b"\xE2\x7F\xBF", b"\xE2\xC0\xBF"]);
    assert_well_formed(false, &[b"\xE2\xBF\x7F", b"\xE2\xBF\xC0"]);
    assert_well_formed(true, &[b"\xF1\x80\xBF\x80", b"\xF1\xBF\x80\xBF"]);
    assert_well_formed(false, &[b"\xF1\x7F\xBF\x80", b"\xF1\xC0\x80\xBF"]);
    assert_well_formed(false, &[b"\xF1\x80\x7F\x80", b"\xF1\xBF\xC0\xBF"]);
    assert_well_formed(false, &[b"\xF1\x80\xBF\x7F", b"\xF1\xBF\x80\xC0"]);
}

/// The longest name that is written, whole and with its last byte broken.
#[test]
fn long_names() {
    let whole = "é".repeat(512).into_bytes();
    let mut cut = whole.clone();
    cut[1_023] = b'e';
    assert_well_formed(true, &[&whole]);
    assert_well_formed(false, &[&cut, &whole[..1_023], &whole[1..]]);
}
