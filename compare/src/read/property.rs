//! Property lists: of the image, and of a drawable.

use super::Refusal;
use super::cursor::{Cursor, Word, number};
use super::version::Version;
use crate::answer::{BAD_CONTENT, FLOATING_SELECTION, PROPERTY_LENGTH};

/// The base type of indexed images.
const INDEXED: u32 = 2;

/// The type and length words of a property.
struct Head {
    kind: Word,
    length: Word,
}

/// The bytes of a property behind its length, and where they start.
struct Payload<'a> {
    bytes: &'a [u8],
    place: u64,
}

/// The payload lengths of a type that allows only some.
fn only_lengths(kind: u32, version: Version) -> Option<&'static [u32]> {
    match kind {
        0 | 2 | 3 | 4 | 29 => Some(&[0]),
        5 => Some(version.floating_lengths()),
        6..=14 | 20 | 22 => Some(&[4]),
        15 | 19 => Some(&[8]),
        16 => Some(&[3]),
        17 => Some(&[1]),
        _ => None,
    }
}

/// The number that up to four bytes hold.
fn word(bytes: &[u8]) -> u32 {
    number(bytes) as u32
}

impl Head {
    fn read(cursor: &mut Cursor) -> Result<Head, Refusal> {
        Ok(Head {
            kind: cursor.word()?,
            length: cursor.word()?,
        })
    }

    /// Refuses a length that is none of the right ones.
    fn test_length(&self, right: &[u32]) -> Result<(), Refusal> {
        self.length
            .tested(right.contains(&self.length.value), PROPERTY_LENGTH)?;
        Ok(())
    }

    /// The payload, once the length is right for the type.
    fn payload<'a>(&self, cursor: &mut Cursor<'a>) -> Result<Payload<'a>, Refusal> {
        if let Some(right) = only_lengths(self.kind.value, cursor.file.version) {
            self.test_length(right)?;
        }
        let place = cursor.place();
        let bytes = cursor.bytes(self.length.value as usize)?;
        Ok(Payload { bytes, place })
    }

    /// Passes over a colour map: a count of at most 256 colours, and three
    /// bytes for each, whichever of the two lengths it has.
    fn colour_map(&self, cursor: &mut Cursor) -> Result<(), Refusal> {
        self.length
            .tested(self.length.value >= 4, PROPERTY_LENGTH)?;
        let count = cursor.word()?;
        count.tested(count.value <= 256, BAD_CONTENT)?;
        self.test_length(&[3 * count.value + 4, count.value + 4])?;
        cursor.bytes(3 * count.value as usize)?;
        Ok(())
    }
}

impl Payload<'_> {
    /// The payload as one number, which may be at most `most`.
    fn at_most(&self, most: u32) -> Result<u32, Refusal> {
        match word(self.bytes) {
            value if value <= most => Ok(value),
            _ => Err(Refusal {
                number: BAD_CONTENT,
                place: self.place,
            }),
        }
    }
}

/// Reads the image's list; gives the compression.
pub fn image_list(cursor: &mut Cursor, base: u32) -> Result<u32, Refusal> {
    let mut compression = 0;
    let mut has_colour_map = false;
    loop {
        let head = Head::read(cursor)?;
        if head.kind.value == 1 {
            head.colour_map(cursor)?;
            has_colour_map = true;
            continue;
        }
        let payload = head.payload(cursor)?;
        match head.kind.value {
            0 => {
                head.kind
                    .tested(has_colour_map || base != INDEXED, BAD_CONTENT)?;
                return Ok(compression);
            }
            17 => compression = payload.at_most(1)?,
            _ => {}
        }
    }
}

/// What the properties of a drawable say; an absent type leaves a default, or
/// `None` where the default is the drawable's.
pub struct Properties {
    pub opacity: u32,
    pub visible: Option<bool>,
    pub apply_mask: Option<bool>,
    pub selection: bool,
    pub active: bool,
    pub group: bool,
    pub offsets: [u32; 2],
    pub mode: u32,
}

/// Reads the list of a layer, or of a channel or mask.
pub fn drawable_list(cursor: &mut Cursor, is_layer: bool) -> Result<Properties, Refusal> {
    let mut found = Properties {
        opacity: 255,
        visible: None,
        apply_mask: None,
        selection: false,
        active: false,
        group: false,
        offsets: [0, 0],
        mode: 0,
    };
    loop {
        let head = Head::read(cursor)?;
        let payload = head.payload(cursor)?;
        if head.kind.value == 0 {
            return Ok(found);
        }
        found.take_shared(&head, &payload)?;
        if is_layer {
            found.take_layers(&head, &payload)?;
        } else {
            found.take_channels(&head);
        }
    }
}

impl Properties {
    /// Takes a property that matters to every drawable.
    fn take_shared(&mut self, head: &Head, payload: &Payload) -> Result<(), Refusal> {
        match head.kind.value {
            6 => self.opacity = payload.at_most(255)?,
            8 => self.visible = Some(payload.at_most(1)? == 1),
            _ => {}
        }
        Ok(())
    }

    /// Takes a property that matters to layers only.
    fn take_layers(&mut self, head: &Head, payload: &Payload) -> Result<(), Refusal> {
        match head.kind.value {
            2 => self.active = true,
            5 => {
                head.kind.tested(false, FLOATING_SELECTION)?;
            }
            7 => self.mode = word(payload.bytes),
            11 => self.apply_mask = Some(payload.at_most(1)? == 1),
            15 => self.offsets = [&payload.bytes[..4], &payload.bytes[4..]].map(word),
            29 => self.group = true,
            _ => {}
        }
        Ok(())
    }

    /// Takes a property that matters to channels and masks only.
    fn take_channels(&mut self, head: &Head) {
        match head.kind.value {
            3 => self.active = true,
            4 => self.selection = true,
            _ => {}
        }
    }
}
