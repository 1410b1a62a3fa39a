//! Files with a single fault, whose refusal is known from how it was made.

use super::block::{Field, FieldKind, set_word, word_at};
use super::builder::BuiltFile;
use super::version::{floating_lengths, of_tag, tag};
use crate::answer::{
    BAD_BASE, BAD_CONTENT, BAD_PRECISION, BAD_SIDE, BAD_TILE_POINTER, DISAGREES,
    FLOATING_SELECTION, NOT_XCF, PAST_END, PROPERTY_LENGTH, TOO_MANY, UNENDED_STRING,
    UNKNOWN_VERSION, ZERO_POINTER,
};
use crate::numbers::{above, bad_side, other, other_side, other_type, pointer_above};
use crate::random::Random;

/// A number, and the place that it stands at.
pub type Refused = (u64, u64);

/// Writes a fault over the field and gives the refusal, which nothing before
/// the field on the walk can forestall; `None` where the field has no fault
/// of its own.
pub fn spoil(random: &mut Random, built: &mut BuiltFile, index: usize) -> Option<Refused> {
    let field = built.fields[index];
    match field.kind {
        FieldKind::Magic => {
            spoil_byte(random, built, field);
            Some((NOT_XCF, 0))
        }
        FieldKind::Version => {
            spoil_version(random, built, field);
            Some((UNKNOWN_VERSION, 9))
        }
        FieldKind::NameEnd => {
            built.bytes[field.place] = random.between(1, 255) as u8;
            Some((UNENDED_STRING, built.fields[index - 1].place as u64))
        }
        FieldKind::Compression => {
            built.bytes[field.place] = random.between(2, 255) as u8;
            Some((BAD_CONTENT, field.place as u64))
        }
        FieldKind::MapType => spoil_map_type(random, built, field),
        _ => {
            let (value, refused) = faulty_word(random, built, field)
                .or_else(|| displaced_fault(random, built, field))
                .or_else(|| faulty_pointer(random, built, field))
                .or_else(|| far_pointer(random, built, field))?;
            field.set(&mut built.bytes, value);
            Some(refused)
        }
    }
}

/// Changes a byte of the field.
fn spoil_byte(random: &mut Random, built: &mut BuiltFile, field: Field) {
    let place = field.place + random.below(field.length);
    built.bytes[place] ^= random.between(1, 255) as u8;
}

/// Makes the version one that is not read, or none.
fn spoil_version(random: &mut Random, built: &mut BuiltFile, field: Field) {
    if random.one_in(2) {
        let version = random.pick(&[4, 5, 6, 7, 8, 9, 10, 12, 13, 21, 110, 111]);
        built.bytes[9..14].copy_from_slice(&tag(version));
        return;
    }
    spoil_byte(random, built, field);
    if of_tag(&built.bytes[9..14]).is_some() {
        built.bytes[13] = random.between(1, 255) as u8;
    }
}

/// Makes an indexed image's only colour map another property, of the length
/// that it takes; the fault is found at the end of the list, which is the
/// file's first.
fn spoil_map_type(random: &mut Random, built: &mut BuiltFile, field: Field) -> Option<Refused> {
    let maps = built.fields.iter().filter(|f| f.kind == FieldKind::MapType);
    if maps.count() > 1 || word_at(&built.bytes, 22) != 2 {
        return None;
    }
    let end = built.fields.iter().find(|f| f.kind == FieldKind::ListEnd)?;
    let place = end.place as u64;
    set_word(
        &mut built.bytes,
        field.place,
        random.pick(&[18, 21, 1 << 24 | 1]),
    );
    let count = word_at(&built.bytes, field.place + 8);
    set_word(&mut built.bytes, field.place + 4, 3 * count + 4);
    Some((BAD_CONTENT, place))
}

/// A number that is a fault in the field, and the refusal.
type Fault = (u64, Refused);

/// A fault of a word, found at the word.
fn faulty_word(random: &mut Random, built: &BuiltFile, field: Field) -> Option<Fault> {
    let place = field.place;
    let old = || word_at(&built.bytes, place);
    let (value, number) = match field.kind {
        FieldKind::CanvasSide | FieldKind::LayerSide => (bad_side(random), BAD_SIDE),
        FieldKind::OwnedSide if random.one_in(2) => (bad_side(random), BAD_SIDE),
        FieldKind::OwnedSide => (other_side(random, old()), DISAGREES),
        FieldKind::Base => (bad_base(random, built), BAD_BASE),
        FieldKind::Precision => (bad_precision(random), BAD_PRECISION),
        FieldKind::LayerType => (other_type(random, old()), DISAGREES),
        FieldKind::FloatingType => (5, FLOATING_SELECTION),
        FieldKind::FixedLength => (other(random, old()), PROPERTY_LENGTH),
        FieldKind::FloatingLength => (bad_floating_length(random, built), PROPERTY_LENGTH),
        FieldKind::MapLength => {
            let count = word_at(&built.bytes, place + 4);
            (bad_map_length(random, count), PROPERTY_LENGTH)
        }
        FieldKind::MapCount if random.one_in(2) => (above(random, 256), BAD_CONTENT),
        FieldKind::Opacity => (above(random, 255), BAD_CONTENT),
        FieldKind::Switch => (above(random, 1), BAD_CONTENT),
        FieldKind::HierarchySide | FieldKind::LevelSide | FieldKind::Depth => {
            (other(random, old()), DISAGREES)
        }
        _ => return None,
    };
    Some((value.into(), (number, place as u64)))
}

/// A fault of a word that is found elsewhere.
fn displaced_fault(random: &mut Random, built: &BuiltFile, field: Field) -> Option<Fault> {
    let place = field.place;
    let (value, number, place) = match field.kind {
        FieldKind::NameLength | FieldKind::FreeLength => {
            let room = built.bytes.len() - place - 4;
            (above(random, room as u32), PAST_END, place + 4)
        }
        FieldKind::LongType => (5, PROPERTY_LENGTH, place + 4),
        FieldKind::MapCount => {
            let length = word_at(&built.bytes, place - 4);
            let wrong: Vec<u32> = (0..=256)
                .filter(|count| !map_lengths(*count).contains(&length))
                .collect();
            (random.pick(&wrong), PROPERTY_LENGTH, place - 4)
        }
        _ => return None,
    };
    Some((value.into(), (number, place as u64)))
}

/// A fault of a pointer, or of a 0 in its place, found where it stands.
fn faulty_pointer(random: &mut Random, built: &BuiltFile, field: Field) -> Option<Fault> {
    let size = field.length;
    let (value, number) = match field.kind {
        FieldKind::FullPointersEnd => (pointer_above(random, 0, 0, size), TOO_MANY),
        FieldKind::ClosingZero => (pointer_above(random, 0, 0, size), BAD_TILE_POINTER),
        FieldKind::HierarchyPointer | FieldKind::LevelPointer if random.one_in(2) => {
            (0, ZERO_POINTER)
        }
        FieldKind::FirstTile | FieldKind::NextTile => {
            (bad_tile(random, built, field), BAD_TILE_POINTER)
        }
        _ => return None,
    };
    Some((value, (number, field.place as u64)))
}

/// A pointer to a structure that is not whole, or not at all, in the file.
fn far_pointer(random: &mut Random, built: &BuiltFile, field: Field) -> Option<Fault> {
    match field.kind {
        FieldKind::LayerPointer
        | FieldKind::ChannelPointer
        | FieldKind::HierarchyPointer
        | FieldKind::MaskPointer
        | FieldKind::NoMask
        | FieldKind::LevelPointer => {
            let last = built.bytes.len() as u32 - 4;
            let value = beyond(random, built, field, last);
            Some((value, (PAST_END, value)))
        }
        _ => None,
    }
}

/// A pointer above the last place that is right, perhaps the field's own with
/// another high word.
fn beyond(random: &mut Random, built: &BuiltFile, field: Field, last: u32) -> u64 {
    pointer_above(random, last, field.number(&built.bytes), field.length)
}

/// The length words that a colour map of so many colours may have.
fn map_lengths(count: u32) -> [u32; 2] {
    [3 * count + 4, count + 4]
}

/// A length word that a colour map of so many colours may not have.
fn bad_map_length(random: &mut Random, count: u32) -> u32 {
    let near = map_lengths(count).map(|right| [right - 1, right + 1]);
    let any = other(random, count + 4);
    let mut wrong = near.as_flattened().to_vec();
    wrong.extend([0, 4, any]);
    wrong.retain(|length| !map_lengths(count).contains(length));
    random.pick(&wrong)
}

/// A base type that the file's version does not have.
fn bad_base(random: &mut Random, built: &BuiltFile) -> u32 {
    let least = match &built.bytes[9..14] {
        b"file\0" => 2,
        _ => 3,
    };
    above(random, least - 1)
}

/// A precision that is not read, of those that files have or of none.
fn bad_precision(random: &mut Random) -> u32 {
    let known = random.pick(&[0, 1, 100, 200, 250, 300, 350, 500, 600, 650, 700, 750]);
    let shifted = 150 << random.pick(&[8, 16, 24]);
    let other = other(random, 150);
    random.pick(&[known, shifted, other])
}

/// A length that type 5 does not have in the file's version.
fn bad_floating_length(random: &mut Random, built: &BuiltFile) -> u32 {
    let right = floating_lengths(built.known.answer.version as u32);
    let mut wrong = vec![
        0,
        1,
        3,
        5,
        7,
        8,
        8,
        8,
        9,
        12,
        16,
        u32::MAX,
        other(random, 4),
    ];
    wrong.retain(|length| !right.contains(length));
    random.pick(&wrong)
}

/// A tile pointer that is 0, not above the one before, or not in the file.
fn bad_tile(random: &mut Random, built: &BuiltFile, field: Field) -> u64 {
    let before = match field.kind {
        FieldKind::NextTile => {
            let place = field.place - field.length;
            Field { place, ..field }.number(&built.bytes)
        }
        _ => 0,
    };
    let below = random.between(0, before as usize) as u64;
    let beyond = beyond(random, built, field, built.bytes.len() as u32 - 1);
    random.pick(&[0, before, below, beyond])
}
