//! A moving place in a file, and the fields that are read from it.

use crate::pointers::{first_bad, pointer, word};
use crate::row::is_side;
use crate::{Fault, Refusal};

pub type Read<T> = Result<T, Refusal>;

/// A moving place in a file of the length, whose pointers have `N` bytes; `rest`
/// is what comes behind it.
pub struct Cursor<'a, const N: usize> {
    rest: &'a [u8],
    length: usize,
}

impl<'a, const N: usize> Cursor<'a, N> {
    /// Every structure starts with a field, which a place past the end lacks.
    pub fn at(file: &'a [u8], place: u64) -> Read<Self> {
        let start = usize::try_from(place).ok();
        match start.and_then(|start| file.get(start..)) {
            Some(rest) => Ok(Cursor {
                rest,
                length: file.len(),
            }),
            None => Err(Refusal {
                fault: Fault::PastEnd,
                place,
            }),
        }
    }

    /// The same place, if pointers have `M` bytes.
    pub fn with_pointers<const M: usize>(self) -> Cursor<'a, M> {
        let Cursor { rest, length } = self;
        Cursor { rest, length }
    }

    pub fn place(&self) -> usize {
        self.length - self.rest.len()
    }

    /// A refusal at the field that starts `back` bytes before the place.
    #[cold]
    pub fn refusal(&self, fault: Fault, back: usize) -> Refusal {
        fault.at(self.place() - back)
    }

    pub fn bytes(&mut self, count: usize) -> Read<&'a [u8]> {
        match self.rest.split_at_checked(count) {
            Some((bytes, rest)) => {
                self.rest = rest;
                Ok(bytes)
            }
            None => Err(self.refusal(Fault::PastEnd, 0)),
        }
    }

    fn chunk<const SIZE: usize>(&mut self) -> Read<&'a [u8; SIZE]> {
        match self.rest.split_first_chunk() {
            Some((bytes, rest)) => {
                self.rest = rest;
                Ok(bytes)
            }
            None => Err(self.refusal(Fault::PastEnd, 0)),
        }
    }

    pub fn word(&mut self) -> Read<u32> {
        self.chunk().map(word)
    }

    pub fn pointer(&mut self) -> Read<u64> {
        self.chunk::<N>().map(pointer)
    }

    /// A word that is refused for the fault unless it is usable.
    pub fn tested_word(&mut self, fault: Fault, is_usable: impl Fn(u32) -> bool) -> Read<u32> {
        match self.word()? {
            word if is_usable(word) => Ok(word),
            _ => Err(self.refusal(fault, 4)),
        }
    }

    pub fn side(&mut self) -> Read<u32> {
        self.tested_word(Fault::BadSide, is_side)
    }

    /// A side that must also equal the owner's.
    pub fn owned_side(&mut self, owners: u32) -> Read<u32> {
        match self.side()? {
            side if side == owners => Ok(side),
            _ => Err(self.refusal(Fault::Disagrees, 4)),
        }
    }

    /// Words that must equal the owner's.
    pub fn equal_words(&mut self, owners: &[u32]) -> Read<()> {
        for &owners in owners {
            self.tested_word(Fault::Disagrees, |word| word == owners)?;
        }
        Ok(())
    }

    pub fn nonzero_pointer(&mut self) -> Read<u64> {
        match self.pointer()? {
            0 => Err(self.refusal(Fault::ZeroPointer, N)),
            pointer => Ok(pointer),
        }
    }

    /// The bytes of a name, which end before the zero that closes it.
    pub fn name(&mut self) -> Read<&'a [u8]> {
        let length = self.word()? as usize;
        match self.bytes(length)? {
            [] => Ok(&[]),
            [name @ .., 0] => Ok(name),
            _ => Err(self.refusal(Fault::UnendedString, length + 4)),
        }
    }

    /// Pointers up to a 0, as many as there is room for.
    pub fn pointers<'b>(&mut self, room: &'b mut [u64]) -> Read<&'b [u64]> {
        let mut count = 0;
        loop {
            let pointer = self.pointer()?;
            if pointer == 0 {
                return Ok(&room[..count]);
            }
            match room.get_mut(count) {
                Some(free) => *free = pointer,
                None => return Err(self.refusal(Fault::TooMany, N)),
            }
            count += 1;
        }
    }

    /// So many tile pointers, and the zero that closes them.
    pub fn tile_pointers(&mut self, count: usize) -> Read<()> {
        let (pointers, _) = self.rest.as_chunks::<N>();
        let pointers = &pointers[..count.min(pointers.len())];
        if let Some(bad) = first_bad(pointers, self.length) {
            self.bytes(N * bad)?;
            return Err(self.refusal(Fault::BadTilePointer, 0));
        }
        self.bytes(N * pointers.len())?;
        if pointers.len() < count {
            return Err(self.refusal(Fault::PastEnd, 0));
        }
        match self.pointer()? {
            0 => Ok(()),
            _ => Err(self.refusal(Fault::BadTilePointer, N)),
        }
    }
}
