//! The versions that are read, and what differs between them.

/// Each tag of five bytes, and the version that it stands for.
const TAGS: [(&[u8], u32); 5] = [
    (b"file\0", 0),
    (b"v001\0", 1),
    (b"v002\0", 2),
    (b"v003\0", 3),
    (b"v011\0", 11),
];

/// The first version with a precision, and the first with long pointers; those
/// between the two are not read.
const WITH_PRECISION: u32 = 4;
const WITH_LONG_POINTERS: u32 = 11;

#[derive(Clone, Copy, Default)]
pub struct Version {
    pub number: u32,
}

impl Version {
    pub fn of_tag(tag: &[u8]) -> Option<Self> {
        let &(_, number) = TAGS.iter().find(|(known, _)| *known == tag)?;
        Some(Version { number })
    }

    /// The highest base type: indexed images came with version 1.
    pub fn most_base(self) -> u32 {
        if self.number == 0 { 1 } else { 2 }
    }

    /// Whether a precision follows the base type.
    pub fn has_precision(self) -> bool {
        self.number >= WITH_PRECISION
    }

    /// How many bytes a pointer has.
    pub fn pointer_size(self) -> usize {
        if self.number >= WITH_LONG_POINTERS {
            8
        } else {
            4
        }
    }

    /// The payload lengths of type 5, which holds a pointer.
    pub fn floating_lengths(self) -> &'static [u32] {
        if self.number >= WITH_LONG_POINTERS {
            &[4, 8]
        } else {
            &[4]
        }
    }
}
