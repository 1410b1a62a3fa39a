//! The rules' example of a whole file.

/// A grey pixel in a channel named "s".
#[rustfmt::skip]
pub const EXAMPLE: [u8; 143] = [
    0x67, 0x69, 0x6D, 0x70, 0x20, 0x78, 0x63, 0x66, 0x20,
    0x66, 0x69, 0x6C, 0x65, 0x00,
    // Canvas 1 by 1, grey; compression 1; no layers; a channel at 55.
    0, 0, 0, 1, 0, 0, 0, 1, 0, 0, 0, 1,
    0, 0, 0, 17, 0, 0, 0, 1, 1, 0, 0, 0, 0, 0, 0, 0, 0,
    0, 0, 0, 0, 0, 0, 0, 55, 0, 0, 0, 0,
    // 55: the channel, its properties at 69, its hierarchy at 105.
    0, 0, 0, 1, 0, 0, 0, 1, 0, 0, 0, 2, 0x73, 0x00,
    0, 0, 0, 6, 0, 0, 0, 4, 0, 0, 0, 255,
    0, 0, 0, 8, 0, 0, 0, 4, 0, 0, 0, 1,
    0, 0, 0, 0, 0, 0, 0, 0,
    0, 0, 0, 105,
    // 105: the hierarchy. 125: the level. 141: the tile.
    0, 0, 0, 1, 0, 0, 0, 1, 0, 0, 0, 1, 0, 0, 0, 125, 0, 0, 0, 0,
    0, 0, 0, 1, 0, 0, 0, 1, 0, 0, 0, 141, 0, 0, 0, 0,
    0xFF, 0xFF,
];
