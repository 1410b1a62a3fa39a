//! A refused file for each number that a short file can be refused with.

use super::files::{
    INDEXED, altered, changed, example, indexed, pointers, put_word, wide, with_49_layers, words,
};

/// Places in the example, a byte that makes it a refused file there, and what
/// `xcf check` says of that file behind its name.
const ALTERED: [(usize, u8, &str); 13] = [
    (
        104,
        255,
        "refused 1 at 255: the file ends before the field or data at this place is complete",
    ),
    (
        0,
        b'G',
        "refused 2 at 0: the file does not begin with \"gimp xcf \"",
    ),
    (
        10,
        b'4',
        "refused 3 at 9: bytes 9 to 13 are no tag of a version that is read (0 to 3 and 11): \"file\", \"v001\", \"v002\", \"v003\" or \"v011\", then a zero byte",
    ),
    (
        17,
        0,
        "refused 4 at 14: a width or height is outside the range 1 to 16,384",
    ),
    (
        20,
        65,
        "refused 4 at 18: a width or height is outside the range 1 to 16,384",
    ),
    (
        25,
        3,
        "refused 5 at 22: the base type is none of 0 (RGB), 1 (greyscale) and, from version 1 on, 2 (indexed)",
    ),
    (
        25,
        2,
        "refused 5 at 22: the base type is none of 0 (RGB), 1 (greyscale) and, from version 1 on, 2 (indexed)",
    ),
    (
        33,
        4,
        "refused 6 at 30: the length of a property does not fit its type (that of a colour map of n colours is 3n + 4 or n + 4)",
    ),
    (
        34,
        2,
        "refused 7 at 34: a property holds a value that is not allowed, or an indexed image has no colour map",
    ),
    (
        104,
        0,
        "refused 9 at 101: the pointer to a hierarchy, or to its first level, is 0",
    ),
    (
        116,
        2,
        "refused 10 at 113: a type, side or depth does not match the image or drawable that it belongs to",
    ),
    (
        68,
        1,
        "refused 12 at 63: a name whose length is not 0 lacks its closing zero byte",
    ),
    (
        136,
        0,
        "refused 13 at 133: a tile pointer is 0, not above the one before it or outside the file, or no 0 ends their list",
    ),
];

/// Files, and what `xcf check` says of each behind its name.
pub fn refused_files() -> Vec<(Vec<u8>, &'static str)> {
    let files = ALTERED.iter();
    let mut files: Vec<_> = files
        .map(|(place, byte, said)| (altered(*place, *byte), *said))
        .collect();
    files.extend([
        (
            Vec::new(),
            "refused 1 at 0: the file ends before the field or data at this place is complete",
        ),
        (
            with_49_layers(),
            "refused 8 at 235: the image has more than 48 layers or more than 32 channels",
        ),
        (
            example()[..141].to_vec(),
            "refused 13 at 133: a tile pointer is 0, not above the one before it or outside the file, or no 0 ends their list",
        ),
        (
            floating_selection(),
            "refused 16 at 101: a layer is a floating selection, which cannot be read",
        ),
    ]);
    files.extend(refused_of_version_11());
    files
}

/// The example in version 11 with a word or a pointer changed. No pointer is
/// cut to 32 bits: one of 2^32 is not 0, and one past the end is its own place.
fn refused_of_version_11() -> [(Vec<u8>, &'static str); 5] {
    let with_word = |place, word| changed(wide(), place, &words(&[word]));
    let with_pointer = |place, pointer| changed(wide(), place, &pointers(&[pointer]));
    [
        (
            with_word(26, 250),
            "refused 25 at 26: the image is stored in another precision than 8-bit gamma (150), which alone is read",
        ),
        (
            with_pointer(55, u64::MAX),
            "refused 1 at 18446744073709551615: the file ends before the field or data at this place is complete",
        ),
        (
            with_pointer(117, 1 << 32),
            "refused 1 at 4294967296: the file ends before the field or data at this place is complete",
        ),
        (
            with_pointer(117, 0),
            "refused 9 at 117: the pointer to a hierarchy, or to its first level, is 0",
        ),
        (
            with_pointer(161, (1 << 32) + 177),
            "refused 13 at 161: a tile pointer is 0, not above the one before it or outside the file, or no 0 ends their list",
        ),
    ]
}

/// Its layer's second property says that it is a floating selection.
fn floating_selection() -> Vec<u8> {
    let mut file = indexed(INDEXED);
    put_word(&mut file, 101, 5);
    put_word(&mut file, 105, 4);
    file
}
