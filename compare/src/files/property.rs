//! Random property lists that a reader accepts.

use super::block::{Block, FieldKind};
use super::version::floating_lengths;
use crate::random::Random;

/// Whose list it is.
#[derive(Clone, Copy, Debug, PartialEq, Eq)]
pub enum Owner {
    Image,
    Layer,
    /// A channel or a mask.
    Channel,
}

#[derive(Clone, Debug)]
pub struct Property {
    pub kind: u32,
    /// What the length word says: the payload's length but in the colour maps
    /// of old releases.
    length: u32,
    pub payload: Vec<u8>,
}

/// The type of floating selections, whose length depends on the version.
const FLOATING: u32 = 5;

/// Types that allow only one length, and that length. Not shared with the
/// reference: a mistake there must not be one in the files that test it.
const FIXED: [(u32, usize); 21] = [
    (2, 0),
    (3, 0),
    (4, 0),
    (6, 4),
    (7, 4),
    (8, 4),
    (9, 4),
    (10, 4),
    (11, 4),
    (12, 4),
    (13, 4),
    (14, 4),
    (15, 8),
    (16, 3),
    (17, 1),
    (19, 8),
    (20, 4),
    (22, 4),
    (29, 0),
    // Those that count most, once more.
    (6, 4),
    (8, 4),
];

/// Types that are skipped by their length.
const FREE: [u32; 14] = [
    18,
    21,
    23,
    24,
    25,
    26,
    27,
    28,
    30,
    35,
    40,
    256,
    16_777_216,
    u32::MAX,
];

impl Property {
    fn new(kind: u32, payload: Vec<u8>) -> Self {
        Property {
            kind,
            length: payload.len() as u32,
            payload,
        }
    }

    /// A colour map, often with the length word of old releases.
    pub fn colour_map(random: &mut Random) -> Self {
        let small = random.between(0, 4) as u32;
        let count = random.pick(&[small, small, small, small, small, small, 255, 256]);
        let mut payload = count.to_be_bytes().to_vec();
        payload.extend(random.bytes(3 * count as usize));
        let mut map = Property::new(1, payload);
        if random.one_in(3) {
            map.length = count + 4;
        }
        map
    }

    /// The compression of run-length encoded tiles.
    pub fn encoded() -> Self {
        Property::new(17, vec![1])
    }

    fn random(random: &mut Random, owner: Owner, version: u32) -> Self {
        if random.one_in(5) {
            return Property::free(random, owner);
        }
        if owner != Owner::Layer && random.one_in(15) {
            return Property::floating(random, version);
        }
        let (kind, length) = random.pick(&FIXED);
        let most = match content_kind(owner, kind) {
            FieldKind::Opacity => Some(255),
            FieldKind::Switch | FieldKind::Compression => Some(1),
            _ => None,
        };
        let mut payload = random.bytes(length);
        if let Some(most) = most {
            payload.fill(0);
            payload[length - 1] = random.between(0, most) as u8;
        }
        Property::new(kind, payload)
    }

    /// A property of a floating selection, which no layer may have.
    fn floating(random: &mut Random, version: u32) -> Self {
        let length = random.pick(floating_lengths(version));
        let payload = random.bytes(length as usize);
        Property::new(FLOATING, payload)
    }

    /// A property of a type that is skipped by its length; outside the
    /// image's list type 1 is one.
    fn free(random: &mut Random, owner: Owner) -> Self {
        let kind = match random.below(6) {
            0 if owner == Owner::Image => return Property::colour_map(random),
            0 => 1,
            1 => random.between(30, 40) as u32,
            // A known type in some of its bits.
            2 => random.below(30) as u32 + random.pick(&[1 << 8, 1 << 16, 1 << 31]),
            _ => random.pick(&FREE),
        };
        let length = match random.below(3) {
            0 => 0,
            1 => random.between(1, 12),
            _ => random.between(1, 60),
        };
        let payload = random.bytes(length);
        Property::new(kind, payload)
    }

    /// The payload as one number, high byte first.
    pub fn number(&self) -> u32 {
        let append = |high: u32, &byte: &u8| high * 256 + u32::from(byte);
        self.payload.iter().fold(0, append)
    }
}

/// A list; types may be there more than once, in any order.
pub fn random_list(random: &mut Random, owner: Owner, version: u32) -> Vec<Property> {
    let count = match random.below(4) {
        0 => 0,
        1 => random.between(1, 2),
        _ => random.between(1, 9),
    };
    (0..count)
        .map(|_| Property::random(random, owner, version))
        .collect()
}

/// The last property of a type.
pub fn last(list: &[Property], kind: u32) -> Option<&Property> {
    list.iter().rfind(|property| property.kind == kind)
}

/// Appends the list and its end to a block.
pub fn push_list(block: &mut Block, owner: Owner, list: &[Property]) {
    for property in list {
        push_property(block, owner, property);
    }
    block.word(FieldKind::ListEnd, 0);
    block.word(FieldKind::FixedLength, 0);
}

fn push_property(block: &mut Block, owner: Owner, property: &Property) {
    let Property {
        kind,
        length,
        payload,
    } = property;
    let is_map = owner == Owner::Image && *kind == 1;
    let is_fixed = FIXED.iter().any(|(fixed, _)| fixed == kind);
    let may_float = floating_lengths(block.version).contains(length);
    let type_kind = match owner {
        _ if is_map => FieldKind::MapType,
        Owner::Layer if may_float => FieldKind::FloatingType,
        _ if *length == 8 && !may_float => FieldKind::LongType,
        _ => FieldKind::PropertyType,
    };
    let length_kind = match is_fixed {
        _ if is_map => FieldKind::MapLength,
        _ if *kind == FLOATING => FieldKind::FloatingLength,
        true => FieldKind::FixedLength,
        false => FieldKind::FreeLength,
    };
    block.word(type_kind, *kind);
    block.word(length_kind, *length);
    if is_map {
        block.push(FieldKind::MapCount, &payload[..4]);
        block.push(FieldKind::Content, &payload[4..]);
    } else {
        block.push(content_kind(owner, *kind), payload);
    }
}

/// What the content of a type is in the owner's list.
fn content_kind(owner: Owner, kind: u32) -> FieldKind {
    match (owner, kind) {
        (Owner::Image, 17) => FieldKind::Compression,
        (Owner::Image, _) => FieldKind::Content,
        (_, 6) => FieldKind::Opacity,
        (_, 8) | (Owner::Layer, 11) => FieldKind::Switch,
        _ => FieldKind::Content,
    }
}
