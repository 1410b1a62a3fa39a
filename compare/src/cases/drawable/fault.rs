//! The faults of a call that decodes a drawable.

use super::{Base, Kind, Refused};
use crate::answer::{BAD_TILE_POINTER, ROW_LENGTH, TABLE_LENGTH, UNUSABLE, WRONG_LENGTH};
use crate::cases::{unusable, wrong_length};
use crate::files::block::{number_at, set_number};
use crate::files::drawable::tile_count;
use crate::numbers::pointer_above;
use crate::random::Random;

/// Kinds that are one fault each, those tested last at the end.
const SINGLE: [Kind; 7] = [
    Kind::RowNumber,
    Kind::Compression,
    Kind::PointerSize,
    Kind::Field,
    Kind::WrongLength,
    Kind::OtherSize,
    Kind::Pointer,
];

/// Sizes that no pointer has, some of which would be right if their high bits
/// were lost.
const BAD_SIZES: [u32; 16] = [
    0,
    1,
    2,
    3,
    5,
    6,
    7,
    9,
    12,
    16,
    32,
    64,
    256 + 4,
    65_536 + 8,
    1 << 31 | 8,
    u32::MAX,
];

/// Sides and tile counts that are unusable, but fit in 32 bits: the number of
/// tiles, or of pixels, wraps around.
const WRAPPED: [[u32; 3]; 5] = [
    [1 << 22, 1 << 22, 0],
    [u32::MAX, 1, 0],
    [1, u32::MAX - 62, 0],
    [1 << 31, 2, 1 << 25],
    [65_536, 65_536, 1 << 20],
];

impl Base {
    /// Makes the call one that is refused.
    pub fn spoil(&mut self, random: &mut Random, kind: Kind) {
        if kind == Kind::Several {
            let kinds = &SINGLE[random.below(SINGLE.len())..];
            for _ in 0..random.between(2, 4) {
                let single = random.pick(kinds);
                self.spoil_once(random, single);
            }
            self.case.known = None;
        } else {
            self.case.known = Some(self.spoil_once(random, kind));
        }
    }

    /// Adds a fault; gives the refusal if there is no other.
    fn spoil_once(&mut self, random: &mut Random, kind: Kind) -> Refused {
        match kind {
            Kind::RowNumber => self.spoil_row_number(random),
            Kind::Compression => {
                let any = random.between(2, u32::MAX as usize) as u32;
                self.case.compression = random.pick(&[2, 2, 3, 256, 257, 1 << 31, u32::MAX, any]);
            }
            Kind::PointerSize => self.case.pointer_size = random.pick(&BAD_SIZES),
            Kind::OtherSize => return self.tell_other_size(),
            Kind::WrongLength => return self.spoil_length(random),
            Kind::Pointer => return self.spoil_pointer(random),
            _ => self.spoil_field(random),
        }
        (UNUSABLE, 0)
    }

    /// The row's numbers, unless another fault took them away.
    fn row_mut(&mut self) -> Option<&mut [u32]> {
        let mut rows = self.case.table.chunks_exact_mut(ROW_LENGTH);
        rows.nth(self.case.row as usize)
    }

    /// Names a row behind the table, also one that is not if its high bits are
    /// lost, or makes the row an unused one.
    fn spoil_row_number(&mut self, random: &mut Random) {
        if random.one_in(5) {
            if let Some(row) = self.row_mut() {
                row.fill(0);
            }
            return;
        }
        let any = random.between(128, u32::MAX as usize) as u32;
        let row = self.case.row % 128;
        let beyond = [128, 129, 255, 1 << 31, u32::MAX, any];
        let wrapping = [128, 256, 65_536, 1 << 26, 1 << 27, 1 << 28].map(|high| high + row);
        let either = [random.pick(&beyond), random.pick(&wrapping)];
        self.case.row = random.pick(&either);
    }

    /// Lends a table, pixels or marks of another length.
    fn spoil_length(&mut self, random: &mut Random) -> Refused {
        match random.below(3) {
            0 => {
                let any = wrong_length(random, TABLE_LENGTH);
                let length = random.pick(&[0, 16, 2_032, 2_047, 2_049, 2_064, any]);
                self.case.table.resize(length, 1);
            }
            1 => {
                let length = wrong_length(random, self.shape.pixels_length());
                self.case.pixels = random.bytes(length);
            }
            _ => {
                let length = wrong_length(random, tile_count(self.shape));
                self.case.marks = random.bytes(length);
            }
        }
        (WRONG_LENGTH, 0)
    }

    /// Tells the pointer size that the tile pointers do not have. The first one
    /// is then a 0, the high word of a long pointer, or far beyond the file, with
    /// a short pointer for its high word; if all that is read lies in the file.
    fn tell_other_size(&mut self) -> Refused {
        self.case.pointer_size = 12 - self.size as u32;
        let length = self.pointers_length() / self.size * self.case.pointer_size as usize;
        match self.place + length <= self.case.file.len() {
            true => (BAD_TILE_POINTER, self.place),
            false => (UNUSABLE, 0),
        }
    }

    /// Makes one of the numbers that decoding uses unusable, or three.
    fn spoil_field(&mut self, random: &mut Random) {
        let shape = self.shape;
        let count = tile_count(shape) as u32;
        let length = self.case.file.len() as u32;
        let room = self.pointers_length() as u32;
        let Some(row) = self.row_mut() else {
            return;
        };
        match random.below(8) {
            0 => row[0] = unusable(random, 1, 3),
            1 => row[1] = bad_side(random, shape.width),
            2 => row[2] = bad_side(random, shape.height),
            3 => row[3] = unusable(random, shape.depth, 4),
            4 | 5 => row[8] = bad_place(random, length, room),
            6 => row[9] = bad_count(random, count),
            _ => [row[1], row[2], row[9]] = random.pick(&WRAPPED),
        }
        let pixels = row[1].wrapping_mul(row[2]).wrapping_mul(row[3]);
        let marks = row[9];
        // What the row asks for in 32 bits, unless that is too much.
        if random.one_in(2) && pixels.max(marks) < 100_000 {
            self.case.pixels = random.bytes(pixels as usize);
            self.case.marks = random.bytes(marks as usize);
        }
    }

    /// The tile pointer of an index.
    fn pointer(&self, index: usize) -> u64 {
        number_at(&self.case.file, self.pointer_place(index), self.size)
    }

    fn pointer_place(&self, index: usize) -> usize {
        self.place + self.size * index
    }

    /// Writes over a tile pointer or the closing zero such that this one, or
    /// the one behind it, is bad.
    fn spoil_pointer(&mut self, random: &mut Random) -> Refused {
        let count = tile_count(self.shape);
        let any = random.below(count + 1);
        let index = random.pick(&[0, count - 1, count, any]);
        let (value, bad) = match count - index {
            0 => (pointer_above(random, 0, 0, self.size), index),
            1 => (self.bad_pointer(random, index), index),
            _ if random.one_in(2) => (self.bad_pointer(random, index), index),
            // This pointer is good, and the next is not above it.
            _ => (self.late_pointer(random, index), index + 1),
        };
        let place = self.pointer_place(index);
        set_number(&mut self.case.file, place, self.size, value);
        (BAD_TILE_POINTER, self.pointer_place(bad))
    }

    /// A pointer that is 0, not in the file, or not above the one before.
    fn bad_pointer(&self, random: &mut Random, index: usize) -> u64 {
        let before = match index {
            0 => 0,
            _ => self.pointer(index - 1),
        };
        let last = self.case.file.len() as u32 - 1;
        let beyond = pointer_above(random, last, self.pointer(index), self.size);
        let below = random.word() % before.max(1);
        random.pick(&[0, beyond, beyond, before, below])
    }

    /// A pointer in the file that is not below the one behind its own.
    fn late_pointer(&self, random: &mut Random, index: usize) -> u64 {
        let next = self.pointer(index + 1);
        let last = self.case.file.len() as u64 - 1;
        let any = random.between(next.min(last) as usize, last as usize) as u64;
        random.pick(&[next, any])
    }
}

/// A side that is unusable, or that another number of tiles belongs to.
fn bad_side(random: &mut Random, side: u32) -> u32 {
    let changes = [64, 65_536, 1 << 31, 0_u32.wrapping_sub(64)];
    let other = side.wrapping_add(random.pick(&changes));
    random.pick(&[0, 16_385, u32::MAX, other, other, other])
}

/// A place from which `room` bytes run past the end of a file of the length,
/// also where they would not if the sum lost its high bits.
fn bad_place(random: &mut Random, length: u32, room: u32) -> u32 {
    let least = length - room + 1;
    let near = least + random.below(room as usize) as u32;
    let any = random.between(least as usize, u32::MAX as usize) as u32;
    let wrapping = 0_u32.wrapping_sub(room);
    random.pick(&[least, near, length, any, u32::MAX, wrapping, wrapping + 1])
}

/// Another number of tiles, also one that is right if the bytes of its
/// pointers lose their high bits.
fn bad_count(random: &mut Random, count: u32) -> u32 {
    let near = random.pick(&[count - 1, count + 1]);
    let wrapping = count + random.pick(&[65_536, 1 << 30, 1 << 31]);
    random.pick(&[0, near, wrapping, (1 << 30) - 1, u32::MAX])
}
