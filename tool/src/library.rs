//! The proved library: every function that it exports, declared once and
//! wrapped in a safe one that takes slices. `include/xcf.h` says what the
//! numbers mean; nothing else of this package is unsafe.

use std::mem::{offset_of, size_of};

/// Numbers in a table that is lent: 128 rows of 16.
pub const TABLE_LENGTH: usize = 2_048;
/// Numbers in a row.
pub const ROW_LENGTH: usize = 16;
/// The side of a tile; those in the last column and line may be smaller.
pub const TILE_SIDE: u32 = 64;
/// Longer files are refused.
pub const FILE_LIMIT: usize = 1_073_741_824;
/// A text of this length holds any listing.
pub const TEXT_LENGTH: usize = 65_536;

/// The number of a row that the writer cannot use.
pub const UNUSABLE_ROW: u64 = 17;
/// The number of an output that is too short, or of a file that would be too
/// long.
pub const OUTPUT_TOO_SHORT: u64 = 18;

/// How an answer lies in memory, for comparison with the C header.
pub struct Layout {
    /// Its types in the header.
    pub types: &'static [&'static str],
    pub size: usize,
    /// Each field, a number of 64 bits, and where it stands.
    pub fields: &'static [(&'static str, usize)],
}

macro_rules! answers {
    ($($(#[$text:meta])* $name:ident = $($c:literal)|+ { $($field:ident),+ })+) => {
        $(
            $(#[$text])*
            #[repr(C)]
            #[derive(Clone, Copy, Debug, Default, PartialEq, Eq)]
            pub struct $name {
                $(pub $field: u64,)+
            }
        )+

        /// The layout of every answer.
        pub const LAYOUTS: &[Layout] = &[$(Layout {
            types: &[$($c),+],
            size: size_of::<$name>(),
            fields: &[$((stringify!($field), offset_of!($name, $field))),+],
        }),+];
    };
}

answers! {
    /// The answer to decoding a tile.
    TileAnswer = "xcf_tile_answer" { number, place, mark, consumed, operations }
    /// The answer to encoding a tile, or to writing a file.
    WriteAnswer = "xcf_encode_answer" | "xcf_write_answer" { number, place, length }
    /// The answer to reading a file.
    ReadAnswer = "xcf_read_answer" {
        number, place, width, height, base, version, compression, rows, pointer_size
    }
    /// The answer to decoding a drawable, or to counting its marked tiles.
    DecodeAnswer = "xcf_decode_answer" { number, place, marked }
    /// The answer to listing a file.
    ListAnswer = "xcf_list_answer" { number, place, refused, at, marked, length }
}

unsafe extern "C" {
    fn xcf_decode_tile(
        window: *const u8,
        window_length: usize,
        width: u32,
        height: u32,
        depth: u32,
        compression: u32,
        pixels: *mut u8,
        pixels_length: usize,
    ) -> TileAnswer;

    fn xcf_encode_tile(
        pixels: *const u8,
        pixels_length: usize,
        width: u32,
        height: u32,
        depth: u32,
        output: *mut u8,
        output_length: usize,
    ) -> WriteAnswer;

    fn xcf_read(
        file: *const u8,
        file_length: usize,
        table: *mut u32,
        table_length: usize,
    ) -> ReadAnswer;

    fn xcf_list(
        file: *const u8,
        file_length: usize,
        table: *mut u32,
        table_length: usize,
        text: *mut u8,
        text_length: usize,
    ) -> ListAnswer;

    fn xcf_decode(
        file: *const u8,
        file_length: usize,
        table: *const u32,
        table_length: usize,
        row: u32,
        compression: u32,
        pointer_size: u32,
        pixels: *mut u8,
        pixels_length: usize,
        marks: *mut u8,
        marks_length: usize,
    ) -> DecodeAnswer;

    fn xcf_count_marked(
        file: *const u8,
        file_length: usize,
        table: *const u32,
        table_length: usize,
        row: u32,
        compression: u32,
        pointer_size: u32,
    ) -> DecodeAnswer;

    fn xcf_write(
        width: u32,
        height: u32,
        base: u32,
        table: *const u32,
        table_length: usize,
        names: *const u8,
        names_length: usize,
        pixels: *const u8,
        pixels_length: usize,
        output: *mut u8,
        output_length: usize,
    ) -> WriteAnswer;
}

/// Decodes the tile at the start of a window.
pub fn decode_tile(
    window: &[u8],
    width: u32,
    height: u32,
    depth: u32,
    compression: u32,
    pixels: &mut [u8],
) -> TileAnswer {
    // SAFETY: both slices are valid for their lengths during the call, and
    // they do not overlap.
    unsafe {
        xcf_decode_tile(
            window.as_ptr(),
            window.len(),
            width,
            height,
            depth,
            compression,
            pixels.as_mut_ptr(),
            pixels.len(),
        )
    }
}

/// Encodes a tile at the start of the output.
pub fn encode_tile(
    pixels: &[u8],
    width: u32,
    height: u32,
    depth: u32,
    output: &mut [u8],
) -> WriteAnswer {
    // SAFETY: both slices are valid for their lengths during the call, and
    // they do not overlap.
    unsafe {
        xcf_encode_tile(
            pixels.as_ptr(),
            pixels.len(),
            width,
            height,
            depth,
            output.as_mut_ptr(),
            output.len(),
        )
    }
}

/// Reads a file into a table.
pub fn read(file: &[u8], table: &mut [u32]) -> ReadAnswer {
    // SAFETY: both slices are valid for their lengths during the call, and
    // they do not overlap.
    unsafe { xcf_read(file.as_ptr(), file.len(), table.as_mut_ptr(), table.len()) }
}

/// Puts a file's listing at the start of a text, and its rows into a table.
pub fn list(file: &[u8], table: &mut [u32], text: &mut [u8]) -> ListAnswer {
    // SAFETY: all three slices are valid for their lengths during the call,
    // and none overlaps another.
    unsafe {
        xcf_list(
            file.as_ptr(),
            file.len(),
            table.as_mut_ptr(),
            table.len(),
            text.as_mut_ptr(),
            text.len(),
        )
    }
}

/// Decodes the drawable of a row into pixels and marks.
pub fn decode(
    file: &[u8],
    table: &[u32],
    row: u32,
    compression: u32,
    pointer_size: u32,
    pixels: &mut [u8],
    marks: &mut [u8],
) -> DecodeAnswer {
    // SAFETY: all four slices are valid for their lengths during the call, and
    // none overlaps another.
    unsafe {
        xcf_decode(
            file.as_ptr(),
            file.len(),
            table.as_ptr(),
            table.len(),
            row,
            compression,
            pointer_size,
            pixels.as_mut_ptr(),
            pixels.len(),
            marks.as_mut_ptr(),
            marks.len(),
        )
    }
}

/// Counts the marked tiles of the drawable of a row.
pub fn count_marked(
    file: &[u8],
    table: &[u32],
    row: u32,
    compression: u32,
    pointer_size: u32,
) -> DecodeAnswer {
    // SAFETY: both slices are valid for their lengths during the call.
    unsafe {
        xcf_count_marked(
            file.as_ptr(),
            file.len(),
            table.as_ptr(),
            table.len(),
            row,
            compression,
            pointer_size,
        )
    }
}

/// Writes a file at the start of the output.
pub fn write(
    width: u32,
    height: u32,
    base: u32,
    table: &[u32],
    names: &[u8],
    pixels: &[u8],
    output: &mut [u8],
) -> WriteAnswer {
    // SAFETY: all four slices are valid for their lengths during the call, and
    // the output overlaps none of the others.
    unsafe {
        xcf_write(
            width,
            height,
            base,
            table.as_ptr(),
            table.len(),
            names.as_ptr(),
            names.len(),
            pixels.as_ptr(),
            pixels.len(),
            output.as_mut_ptr(),
            output.len(),
        )
    }
}
