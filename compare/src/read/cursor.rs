//! A place in a file that moves along while a structure is read.

use std::ops::Range;

use super::Refusal;
use super::version::Version;
use crate::answer::{BAD_SIDE, PAST_END, SIDE_LIMIT, UNENDED_STRING};

/// A number in a file, and the place where it stands.
#[derive(Clone, Copy)]
pub struct Field<Number> {
    pub value: Number,
    pub place: u64,
}

/// A number of four bytes.
pub type Word = Field<u32>;

/// A number of as many bytes as pointers have in the file's version.
pub type Pointer = Field<u64>;

impl<Number> Field<Number> {
    /// The field itself if `holds`; else it is refused where it stands.
    pub fn tested(self, holds: bool, number: u64) -> Result<Self, Refusal> {
        if holds {
            Ok(self)
        } else {
            Err(Refusal {
                number,
                place: self.place,
            })
        }
    }
}

/// The place of a name's bytes, their number without the closing zero, and
/// whether they are well-formed UTF-8.
pub struct Name {
    pub place: u64,
    pub count: usize,
    pub is_utf8: bool,
}

/// A file, and the version that it is read as.
#[derive(Clone, Copy)]
pub struct File<'a> {
    pub bytes: &'a [u8],
    pub version: Version,
}

pub struct Cursor<'a> {
    pub file: File<'a>,
    start: u64,
    place: u64,
}

impl<'a> Cursor<'a> {
    pub fn new(file: File<'a>, place: u64) -> Self {
        Cursor {
            file,
            start: place,
            place,
        }
    }

    pub fn place(&self) -> u64 {
        self.place
    }

    /// The bytes passed over: all from the first place on.
    pub fn passed(&self) -> Range<usize> {
        self.start as usize..self.place as usize
    }

    /// The bytes from the place on, if it lies in the file or at its end.
    fn rest(&self) -> Option<&'a [u8]> {
        let place = usize::try_from(self.place).ok()?;
        self.file.bytes.get(place..)
    }

    /// The next `count` bytes.
    pub fn bytes(&mut self, count: usize) -> Result<&'a [u8], Refusal> {
        let bytes = self.rest().and_then(|rest| rest.get(..count));
        let bytes = bytes.ok_or(Refusal {
            number: PAST_END,
            place: self.place,
        })?;
        // No more than the file's length, now that the bytes are there.
        self.place += count as u64;
        Ok(bytes)
    }

    /// The next four bytes as a number, high byte first.
    pub fn word(&mut self) -> Result<Word, Refusal> {
        let place = self.place;
        let value = number(self.bytes(4)?) as u32;
        Ok(Word { value, place })
    }

    /// The next pointer, high byte first.
    pub fn pointer(&mut self) -> Result<Pointer, Refusal> {
        let place = self.place;
        let value = number(self.bytes(self.file.version.pointer_size())?);
        Ok(Pointer { value, place })
    }

    /// A word that is a usable side.
    pub fn side(&mut self) -> Result<Word, Refusal> {
        let word = self.word()?;
        word.tested((1..=SIDE_LIMIT).contains(&word.value), BAD_SIDE)
    }

    /// A length word and so many bytes, the last of which is zero.
    pub fn string(&mut self) -> Result<Name, Refusal> {
        let length = self.word()?;
        let place = self.place;
        let bytes = self.bytes(length.value as usize)?;
        length.tested(matches!(bytes, [] | [.., 0]), UNENDED_STRING)?;
        let name = bytes.split_last().map_or(bytes, |(_, name)| name);
        Ok(Name {
            place,
            count: name.len(),
            is_utf8: str::from_utf8(name).is_ok(),
        })
    }
}

/// The number that up to eight bytes hold, high byte first.
pub fn number(bytes: &[u8]) -> u64 {
    let append = |high, &byte| high << 8 | u64::from(byte);
    bytes.iter().fold(0, append)
}
