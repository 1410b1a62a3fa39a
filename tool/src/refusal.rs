//! The numbers that the library refuses with, in words.

use std::fmt;

/// A number and a place that the library answered.
#[derive(Clone, Copy, Debug, PartialEq, Eq)]
pub struct Refusal {
    pub number: u64,
    pub place: u64,
}

impl Refusal {
    /// Nothing where the number is 0.
    pub fn of(number: u64, place: u64) -> Result<(), Refusal> {
        match number {
            0 => Ok(()),
            _ => Err(Refusal { number, place }),
        }
    }
}

impl fmt::Display for Refusal {
    fn fmt(&self, f: &mut fmt::Formatter) -> fmt::Result {
        let Refusal { number, place } = self;
        write!(f, "refused {number} at {place}: {}", meaning(*number))
    }
}

/// What a number means to somebody who has the file (RULES, "Numbers").
fn meaning(number: u64) -> &'static str {
    match number {
        1 => "the file ends before the field or data at this place is complete",
        2 => "the file does not begin with \"gimp xcf \"",
        3 => {
            "bytes 9 to 13 are no tag of a version that is read (0 to 3 and 11): \"file\", \"v001\", \"v002\", \"v003\" or \"v011\", then a zero byte"
        }
        4 => "a width or height is outside the range 1 to 16,384",
        5 => "the base type is none of 0 (RGB), 1 (greyscale) and, from version 1 on, 2 (indexed)",
        6 => {
            "the length of a property does not fit its type (that of a colour map of n colours is 3n + 4 or n + 4)"
        }
        7 => "a property holds a value that is not allowed, or an indexed image has no colour map",
        8 => "the image has more than 48 layers or more than 32 channels",
        9 => "the pointer to a hierarchy, or to its first level, is 0",
        10 => "a type, side or depth does not match the image or drawable that it belongs to",
        11 => "a buffer is lent with a length that does not fit",
        12 => "a name whose length is not 0 lacks its closing zero byte",
        13 => {
            "a tile pointer is 0, not above the one before it or outside the file, or no 0 ends their list"
        }
        14 => {
            "there is no such row, or the row, tile, compression or size of pointers cannot be used"
        }
        15 => "the file is longer than 1,073,741,824 bytes",
        16 => "a layer is a floating selection, which cannot be read",
        17 => "a row cannot be written as it is given",
        18 => "what is to be written is longer than the output lent for it, or than a file may be",
        25 => {
            "the image is stored in another precision than 8-bit gamma (150), which alone is read"
        }
        _ => "a number that is not listed",
    }
}
