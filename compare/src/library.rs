//! The static library's functions, with the answers of this package.

use xcf_tool::library;

use crate::answer::{DecodeAnswer, ListAnswer, ReadAnswer, TileAnswer, WriteAnswer};

/// Answers of the same fields.
macro_rules! convert {
    ($($name:ident { $($field:ident),+ })+) => {$(
        impl From<library::$name> for $name {
            fn from(answer: library::$name) -> Self {
                let library::$name { $($field),+ } = answer;
                $name { $($field),+ }
            }
        }
    )+};
}

convert! {
    TileAnswer { number, place, mark, consumed, operations }
    WriteAnswer { number, place, length }
    ReadAnswer {
        number, place, width, height, base, version, compression, rows, pointer_size
    }
    DecodeAnswer { number, place, marked }
    ListAnswer { number, place, refused, at, marked, length }
}

pub fn decode_tile(
    window: &[u8],
    width: u32,
    height: u32,
    depth: u32,
    compression: u32,
    pixels: &mut [u8],
) -> TileAnswer {
    library::decode_tile(window, width, height, depth, compression, pixels).into()
}

pub fn encode_tile(
    pixels: &[u8],
    width: u32,
    height: u32,
    depth: u32,
    output: &mut [u8],
) -> WriteAnswer {
    library::encode_tile(pixels, width, height, depth, output).into()
}

pub fn read(file: &[u8], table: &mut [u32]) -> ReadAnswer {
    library::read(file, table).into()
}

pub fn list(file: &[u8], table: &mut [u32], text: &mut [u8]) -> ListAnswer {
    library::list(file, table, text).into()
}

pub fn decode(
    file: &[u8],
    table: &[u32],
    row: u32,
    compression: u32,
    pointer_size: u32,
    pixels: &mut [u8],
    marks: &mut [u8],
) -> DecodeAnswer {
    library::decode(file, table, row, compression, pointer_size, pixels, marks).into()
}

pub fn count_marked(
    file: &[u8],
    table: &[u32],
    row: u32,
    compression: u32,
    pointer_size: u32,
) -> DecodeAnswer {
    library::count_marked(file, table, row, compression, pointer_size).into()
}

pub fn write(
    width: u32,
    height: u32,
    base: u32,
    table: &[u32],
    names: &[u8],
    pixels: &[u8],
    output: &mut [u8],
) -> WriteAnswer {
    library::write(width, height, base, table, names, pixels, output).into()
}
