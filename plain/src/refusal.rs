//! Why a call is refused.

/// The faults, each with its number.
#[derive(Clone, Copy, Debug, PartialEq, Eq)]
pub enum Fault {
    PastEnd = 1,
    NotXcf = 2,
    UnknownVersion = 3,
    BadSide = 4,
    BadBase = 5,
    PropertyLength = 6,
    BadContent = 7,
    TooMany = 8,
    ZeroPointer = 9,
    Disagrees = 10,
    WrongLength = 11,
    UnendedString = 12,
    BadTilePointer = 13,
    Unusable = 14,
    FileTooLong = 15,
    FloatingSelection = 16,
    UnusableRow = 17,
    OutputTooShort = 18,
    BadPrecision = 25,
}

/// A fault, and where it stands.
#[derive(Clone, Copy, Debug, PartialEq, Eq)]
pub struct Refusal {
    pub fault: Fault,
    pub place: u64,
}

impl Fault {
    /// A refusal for this fault at the place.
    pub(crate) fn at(self, place: usize) -> Refusal {
        Refusal {
            fault: self,
            place: place as u64,
        }
    }

    /// A refusal for this fault, unless something holds.
    pub(crate) fn unless(self, holds: bool) -> Result<(), Refusal> {
        match holds {
            true => Ok(()),
            false => Err(self.at(0)),
        }
    }
}
