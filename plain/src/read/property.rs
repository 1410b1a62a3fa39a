//! Property lists.

use super::cursor::{Cursor, Read};
use crate::Fault;
use crate::pointers::word;
use crate::row::{ACTIVE, APPLY_MASK, GROUP, LAYER, Row, SELECTION, VISIBLE};

/// The payload length of a type that allows only one.
fn only_length(kind: u32) -> Option<u32> {
    match kind {
        0 | 2 | 3 | 4 | 29 => Some(0),
        5..=14 | 20 | 22 => Some(4),
        15 | 19 => Some(8),
        16 => Some(3),
        17 => Some(1),
        _ => None,
    }
}

/// Whether a property of the type may be so long. What a floating selection is
/// attached to may also be given by a pointer of `N` bytes.
fn is_length<const N: usize>(kind: u32, length: u32) -> bool {
    only_length(kind).is_none_or(|right| right == length) || kind == 5 && length == N as u32
}

/// A payload, once its length is right for the type.
fn payload<'a, const N: usize>(
    cursor: &mut Cursor<'a, N>,
    kind: u32,
    length: u32,
) -> Read<&'a [u8]> {
    if !is_length::<N>(kind, length) {
        return Err(cursor.refusal(Fault::PropertyLength, 4));
    }
    cursor.bytes(length as usize)
}

/// The first word of a payload, or 0 where it is shorter.
fn word_of(payload: &[u8]) -> u32 {
    payload.first_chunk().map_or(0, word)
}

/// The value of the payload that starts `back` bytes before the place; it may
/// be at most `most`.
fn at_most<const N: usize>(cursor: &Cursor<N>, most: u32, value: u32, back: usize) -> Read<u32> {
    if value > most {
        return Err(cursor.refusal(Fault::BadContent, back));
    }
    Ok(value)
}

/// Passes over a colour map, whose length word is given: it says how many bytes
/// there are or, in old files, a byte for each colour and the count's word.
fn colour_map<const N: usize>(cursor: &mut Cursor<N>, length: u32) -> Read<()> {
    if length < 4 {
        return Err(cursor.refusal(Fault::PropertyLength, 4));
    }
    let count = cursor.tested_word(Fault::BadContent, |count| count <= 256)?;
    if length != 3 * count + 4 && length != count + 4 {
        return Err(cursor.refusal(Fault::PropertyLength, 8));
    }
    cursor.bytes(3 * count as usize)?;
    Ok(())
}

/// Reads the image's list; gives the compression.
pub fn image_list<const N: usize>(cursor: &mut Cursor<N>, base: u32) -> Read<u32> {
    let mut compression = 0;
    let mut lacks_map = base == 2;
    loop {
        let kind = cursor.word()?;
        let length = cursor.word()?;
        if kind == 1 {
            colour_map(cursor, length)?;
            lacks_map = false;
            continue;
        }
        let payload = payload(cursor, kind, length)?;
        match kind {
            0 if lacks_map => return Err(cursor.refusal(Fault::BadContent, 8)),
            0 => return Ok(compression),
            17 => compression = at_most(cursor, 1, payload[0].into(), 1)?,
            _ => {}
        }
    }
}

fn set(flags: &mut u32, flag: u32, value: u32) {
    *flags = (*flags & !flag) | (flag * value);
}

/// Reads a drawable's list into its row, which holds what stands for absent
/// types.
pub fn drawable_list<const N: usize>(cursor: &mut Cursor<N>, row: &mut Row) -> Read<()> {
    let is_layer = row[0] == LAYER;
    loop {
        let kind = cursor.word()?;
        let length = cursor.word()?;
        let payload = payload(cursor, kind, length)?;
        let word = word_of(payload);
        match kind {
            0 => return Ok(()),
            2 if is_layer => row[11] |= ACTIVE,
            3 if !is_layer => row[11] |= ACTIVE,
            4 if !is_layer => row[11] |= SELECTION,
            5 if is_layer => {
                return Err(cursor.refusal(Fault::FloatingSelection, 8 + payload.len()));
            }
            6 => row[10] = at_most(cursor, 255, word, 4)?,
            7 if is_layer => row[14] = word,
            8 => set(&mut row[11], VISIBLE, at_most(cursor, 1, word, 4)?),
            11 if is_layer => set(&mut row[11], APPLY_MASK, at_most(cursor, 1, word, 4)?),
            15 if is_layer => {
                row[12] = word;
                row[13] = word_of(&payload[4..]);
            }
            29 if is_layer => row[11] |= GROUP,
            _ => {}
        }
    }
}
