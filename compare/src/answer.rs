//! The answers of the library's functions, and the numbers in them.

/// The file ends before a field, string or payload does.
pub const PAST_END: u64 = 1;
/// The file does not begin with "gimp xcf ".
pub const NOT_XCF: u64 = 2;
/// The version is none of 0 to 3 and 11.
pub const UNKNOWN_VERSION: u64 = 3;
/// A side is outside 1 to 16,384.
pub const BAD_SIDE: u64 = 4;
/// The base type exceeds 2, or is 2 in version 0; for the writer it exceeds 1.
pub const BAD_BASE: u64 = 5;
/// The length of a property does not fit its type.
pub const PROPERTY_LENGTH: u64 = 6;
/// A payload's value is not allowed, or an indexed image has no colour map.
pub const BAD_CONTENT: u64 = 7;
/// More than 48 layers or 32 channels.
pub const TOO_MANY: u64 = 8;
/// The pointer to a hierarchy or to its first level is 0.
pub const ZERO_POINTER: u64 = 9;
/// A type, side or depth is not what its owner says.
pub const DISAGREES: u64 = 10;
/// The length of a buffer does not fit.
pub const WRONG_LENGTH: u64 = 11;
/// A string has bytes, and the last is not zero.
pub const UNENDED_STRING: u64 = 12;
/// A tile pointer, or the zero that closes them, breaks its rule.
pub const BAD_TILE_POINTER: u64 = 13;
/// A row, side, depth, compression or pointer size that is not decoded or encoded.
pub const UNUSABLE: u64 = 14;
/// The file is longer than the limit.
pub const FILE_TOO_LONG: u64 = 15;
/// A layer has the property of a floating selection.
pub const FLOATING_SELECTION: u64 = 16;
/// A row cannot be written.
pub const UNUSABLE_ROW: u64 = 17;
/// The output is too short, or the file would be longer than the limit.
pub const OUTPUT_TOO_SHORT: u64 = 18;
/// The precision is not that of eight bits with gamma.
pub const BAD_PRECISION: u64 = 25;

/// The mark of a good tile.
pub const GOOD: u64 = 0;
/// The mark of a tile whose window ends before it does.
pub const TOO_SOON: u64 = 20;
/// The mark of a tile with an operation that gives more than its stream takes.
pub const OVERRUN: u64 = 21;

/// Longer streams are refused.
pub const STREAM_LIMIT: usize = 4_096;

/// Longer windows are cut here.
pub const WINDOW_LIMIT: usize = 24_576;

/// Longer files are refused, and none is written.
pub const FILE_LIMIT: usize = 1_073_741_824;

/// Longer files are not listed.
pub const LIST_LIMIT: usize = 32_768;

/// Longer sides are refused.
pub const SIDE_LIMIT: u32 = 16_384;

/// Numbers in a row of the table.
pub const ROW_LENGTH: usize = 16;

/// Numbers in a table that is lent: 128 rows.
pub const TABLE_LENGTH: usize = 2_048;

/// A row of the table.
pub type Row = [u32; ROW_LENGTH];

/// A decoder: window, width, height, depth, compression, pixels.
pub type Decode = fn(&[u8], u32, u32, u32, u32, &mut [u8]) -> TileAnswer;
/// An encoder: pixels, width, height, depth, output.
pub type Encode = fn(&[u8], u32, u32, u32, &mut [u8]) -> WriteAnswer;
/// A reader: file, table.
pub type Read = fn(&[u8], &mut [u32]) -> ReadAnswer;
/// A decoder of drawables: file, table, row, compression, pointer size, pixels,
/// marks.
pub type DecodeDrawable = fn(&[u8], &[u32], u32, u32, u32, &mut [u8], &mut [u8]) -> DecodeAnswer;
/// A counter of marked tiles: file, table, row, compression, pointer size.
pub type CountMarked = fn(&[u8], &[u32], u32, u32, u32) -> DecodeAnswer;
/// A lister: file, table, text.
pub type List = fn(&[u8], &mut [u32], &mut [u8]) -> ListAnswer;
/// A writer: width, height, base, table, names, pixels, output.
pub type Write = fn(u32, u32, u32, &[u32], &[u8], &[u8], &mut [u8]) -> WriteAnswer;

/// The answer to decoding a tile.
#[derive(Clone, Copy, Debug, PartialEq, Eq)]
pub struct TileAnswer {
    pub number: u64,
    pub place: u64,
    pub mark: u64,
    pub consumed: u64,
    pub operations: u64,
}

impl TileAnswer {
    pub fn refused(number: u64) -> Self {
        TileAnswer {
            number,
            place: 0,
            mark: 0,
            consumed: 0,
            operations: 0,
        }
    }

    pub fn decoded(mark: u64, consumed: usize, operations: usize) -> Self {
        TileAnswer {
            number: 0,
            place: 0,
            mark,
            consumed: consumed as u64,
            operations: operations as u64,
        }
    }
}

/// The answer to encoding a tile, or to writing a file.
#[derive(Clone, Copy, Debug, PartialEq, Eq)]
pub struct WriteAnswer {
    pub number: u64,
    pub place: u64,
    pub length: u64,
}

impl WriteAnswer {
    pub fn refused(number: u64) -> Self {
        WriteAnswer::refused_at(number, 0)
    }

    pub fn refused_at(number: u64, place: usize) -> Self {
        WriteAnswer {
            number,
            place: place as u64,
            length: 0,
        }
    }

    pub fn written(length: usize) -> Self {
        WriteAnswer {
            number: 0,
            place: 0,
            length: length as u64,
        }
    }
}

/// The answer to reading a file.
#[derive(Clone, Copy, Debug, PartialEq, Eq)]
pub struct ReadAnswer {
    pub number: u64,
    pub place: u64,
    pub width: u64,
    pub height: u64,
    pub base: u64,
    pub version: u64,
    pub compression: u64,
    pub rows: u64,
    pub pointer_size: u64,
}

impl ReadAnswer {
    /// An image's five numbers (sides, base, version, compression) and how many
    /// rows it has. In version 11 pointers have 8 bytes, else 4.
    pub const fn accepted(image: [u64; 5], rows: usize) -> Self {
        let [width, height, base, version, compression] = image;
        ReadAnswer {
            number: 0,
            place: 0,
            width,
            height,
            base,
            version,
            compression,
            rows: rows as u64,
            pointer_size: if version == 11 { 8 } else { 4 },
        }
    }

    pub fn refused(number: u64, place: u64) -> Self {
        ReadAnswer {
            number,
            place,
            width: 0,
            height: 0,
            base: 0,
            version: 0,
            compression: 0,
            rows: 0,
            pointer_size: 0,
        }
    }

    /// What decoding the file's drawables takes: the compression, and the size
    /// of pointers.
    pub fn form(&self) -> [u32; 2] {
        [self.compression, self.pointer_size].map(|number| number as u32)
    }
}

/// The answer to decoding a drawable, or to counting its marked tiles.
#[derive(Clone, Copy, Debug, PartialEq, Eq)]
pub struct DecodeAnswer {
    pub number: u64,
    pub place: u64,
    pub marked: u64,
}

impl DecodeAnswer {
    pub fn refused(number: u64, place: usize) -> Self {
        DecodeAnswer {
            number,
            place: place as u64,
            marked: 0,
        }
    }

    pub fn decoded(marked: usize) -> Self {
        DecodeAnswer {
            number: 0,
            place: 0,
            marked: marked as u64,
        }
    }
}

/// The answer to listing a file: the call's own refusal, the file's verdict,
/// and what is listed.
#[derive(Clone, Copy, Debug, Default, PartialEq, Eq)]
pub struct ListAnswer {
    pub number: u64,
    pub place: u64,
    pub refused: u64,
    pub at: u64,
    pub marked: u64,
    pub length: u64,
}

impl ListAnswer {
    /// The call is refused, whatever the file.
    pub fn not_listed() -> Self {
        ListAnswer {
            number: WRONG_LENGTH,
            ..Default::default()
        }
    }

    /// A listing of so many bytes, of a file that was read so.
    pub fn listed(read: ReadAnswer, marked: u64, length: usize) -> Self {
        ListAnswer {
            refused: read.number,
            at: read.place,
            marked,
            length: length as u64,
            ..Default::default()
        }
    }
}
