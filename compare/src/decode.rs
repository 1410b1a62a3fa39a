//! The reference: decoding a whole drawable by its row of the table, written
//! for clarity.

use std::ops::Range;

use crate::answer::{
    BAD_TILE_POINTER, DecodeAnswer, FILE_LIMIT, FILE_TOO_LONG, GOOD, ROW_LENGTH, SIDE_LIMIT,
    TABLE_LENGTH, UNUSABLE, WINDOW_LIMIT, WRONG_LENGTH,
};
use crate::read::number;
use crate::tile;

/// The longest side of a tile.
const TILE_SIDE: usize = 64;

/// The numbers that decoding takes from a row, the compression and the size of
/// pointers, all of them usable.
#[derive(Clone, Copy, Debug)]
pub struct Drawable {
    width: usize,
    height: usize,
    depth: usize,
    /// Where the tile pointers begin.
    place: usize,
    /// How many tiles there are.
    count: usize,
    compression: u32,
    /// Bytes in a pointer.
    pointer_size: usize,
}

/// The part of a drawable that a tile covers.
struct Area {
    columns: Range<usize>,
    lines: Range<usize>,
}

impl Drawable {
    /// The drawable of a row, unless the table, the file or the row cannot be
    /// used.
    pub fn new(
        file: &[u8],
        table: &[u32],
        row: u32,
        compression: u32,
        pointer_size: u32,
    ) -> Result<Self, DecodeAnswer> {
        if table.len() != TABLE_LENGTH {
            return Err(DecodeAnswer::refused(WRONG_LENGTH, 0));
        }
        if file.len() > FILE_LIMIT {
            return Err(DecodeAnswer::refused(FILE_TOO_LONG, 0));
        }
        table
            .chunks(ROW_LENGTH)
            .nth(row as usize)
            .and_then(|row| Drawable::of_row(row, compression, pointer_size))
            .filter(|drawable| drawable.pointers_end() <= file.len())
            .ok_or(DecodeAnswer::refused(UNUSABLE, 0))
    }

    /// The row's numbers, if each is in range and the tile count fits the
    /// sides.
    pub fn of_row(row: &[u32], compression: u32, pointer_size: u32) -> Option<Self> {
        let in_range = (1..=3).contains(&row[0])
            && (1..=SIDE_LIMIT).contains(&row[1])
            && (1..=SIDE_LIMIT).contains(&row[2])
            && (1..=4).contains(&row[3])
            && compression <= 1
            && [4, 8].contains(&pointer_size);
        let drawable = Drawable {
            width: row[1] as usize,
            height: row[2] as usize,
            depth: row[3] as usize,
            place: row[8] as usize,
            count: row[9] as usize,
            compression,
            pointer_size: pointer_size as usize,
        };
        (in_range && drawable.count == drawable.tiles_across() * drawable.tiles_down())
            .then_some(drawable)
    }

    fn tiles_across(&self) -> usize {
        self.width.div_ceil(TILE_SIDE)
    }

    fn tiles_down(&self) -> usize {
        self.height.div_ceil(TILE_SIDE)
    }

    /// The place of the tile pointer of an index, or of what follows them all.
    fn pointer_place(&self, index: usize) -> usize {
        self.place + self.pointer_size * index
    }

    /// The end of the tile pointers and of the zero that closes them.
    fn pointers_end(&self) -> usize {
        self.pointer_place(self.count + 1)
    }

    /// Bytes in all pixels.
    pub fn pixels_length(&self) -> usize {
        self.width * self.height * self.depth
    }

    /// How many tiles there are.
    pub fn tile_count(&self) -> usize {
        self.count
    }

    /// The tile pointers, and what closes them.
    fn pointers(&self, file: &[u8]) -> Vec<u64> {
        file[self.place..self.pointers_end()]
            .chunks(self.pointer_size)
            .map(number)
            .collect()
    }

    /// The tiles' windows, unless a pointer or the closing zero is bad.
    pub fn windows(&self, file: &[u8]) -> Result<Vec<Range<usize>>, DecodeAnswer> {
        let pointers = self.pointers(file);
        let (&closing, pointers) = pointers.split_last().expect("the closing zero");
        let mut places = Vec::new();
        let mut before = 0;
        for (i, &pointer) in pointers.iter().enumerate() {
            if pointer <= before || pointer >= file.len() as u64 {
                return Err(self.bad_pointer(i));
            }
            places.push(pointer as usize);
            before = pointer;
        }
        if closing != 0 {
            return Err(self.bad_pointer(self.count));
        }
        let ends = places[1..].iter().copied().chain([file.len()]);
        Ok(places
            .iter()
            .zip(ends)
            .map(|(&start, end)| start..end.min(start + WINDOW_LIMIT))
            .collect())
    }

    fn bad_pointer(&self, index: usize) -> DecodeAnswer {
        DecodeAnswer::refused(BAD_TILE_POINTER, self.pointer_place(index))
    }

    fn area(&self, tile: usize) -> Area {
        let left = tile % self.tiles_across() * TILE_SIDE;
        let top = tile / self.tiles_across() * TILE_SIDE;
        Area {
            columns: left..self.width.min(left + TILE_SIDE),
            lines: top..self.height.min(top + TILE_SIDE),
        }
    }

    /// Where the lines of a tile lie among the drawable's bytes.
    fn lines(&self, tile: usize) -> impl Iterator<Item = Range<usize>> {
        let Drawable { width, depth, .. } = *self;
        let Area { columns, lines } = self.area(tile);
        lines.map(move |line| {
            let start = line * width;
            (start + columns.start) * depth..(start + columns.end) * depth
        })
    }

    /// The bytes of a tile, cut out of the drawable's.
    pub fn cut_out(&self, tile: usize, pixels: &[u8]) -> Vec<u8> {
        self.lines(tile)
            .flat_map(|line| &pixels[line])
            .copied()
            .collect()
    }

    /// The width, height and depth of a tile.
    pub fn tile_shape(&self, tile: usize) -> [u32; 3] {
        let Area { columns, lines } = self.area(tile);
        [columns.len(), lines.len(), self.depth].map(|number| number as u32)
    }

    /// A tile's mark and its bytes, from its window.
    fn decode_tile(&self, tile: usize, window: &[u8]) -> (u8, Vec<u8>) {
        let [width, height, depth] = self.tile_shape(tile);
        let mut bytes = vec![0; (width * height * depth) as usize];
        let answer = tile::decode_tile(window, width, height, depth, self.compression, &mut bytes);
        assert_eq!(answer.number, 0, "every tile of a drawable is usable");
        (answer.mark as u8, bytes)
    }

    /// Fills the lent buffers; gives how many tiles are marked.
    fn fill(
        &self,
        file: &[u8],
        pixels: &mut [u8],
        marks: &mut [u8],
    ) -> Result<usize, DecodeAnswer> {
        if pixels.len() != self.pixels_length() || marks.len() != self.count {
            return Err(DecodeAnswer::refused(WRONG_LENGTH, 0));
        }
        for (tile, window) in self.windows(file)?.into_iter().enumerate() {
            let (mark, bytes) = self.decode_tile(tile, &file[window]);
            marks[tile] = mark;
            let mut rest = &bytes[..];
            for line in self.lines(tile) {
                let (first, later) = rest.split_at(line.len());
                pixels[line].copy_from_slice(first);
                rest = later;
            }
        }
        Ok(count_bad(marks))
    }

    /// The marks of all tiles.
    fn marks(&self, file: &[u8]) -> Result<Vec<u8>, DecodeAnswer> {
        let windows = self.windows(file)?.into_iter().enumerate();
        Ok(windows
            .map(|(tile, window)| self.decode_tile(tile, &file[window]).0)
            .collect())
    }
}

/// How many marks are not those of good tiles.
fn count_bad(marks: &[u8]) -> usize {
    let is_bad = |mark: &&u8| u64::from(**mark) != GOOD;
    marks.iter().filter(is_bad).count()
}

/// Decodes the drawable of a row into its pixels, line by line, and a mark for
/// each tile.
pub fn decode(
    file: &[u8],
    table: &[u32],
    row: u32,
    compression: u32,
    pointer_size: u32,
    pixels: &mut [u8],
    marks: &mut [u8],
) -> DecodeAnswer {
    Drawable::new(file, table, row, compression, pointer_size)
        .and_then(|drawable| drawable.fill(file, pixels, marks))
        .map_or_else(|refusal| refusal, DecodeAnswer::decoded)
}

/// Counts the marked tiles of the drawable of a row.
pub fn count_marked(
    file: &[u8],
    table: &[u32],
    row: u32,
    compression: u32,
    pointer_size: u32,
) -> DecodeAnswer {
    Drawable::new(file, table, row, compression, pointer_size)
        .and_then(|drawable| drawable.marks(file))
        .map_or_else(
            |refusal| refusal,
            |marks| DecodeAnswer::decoded(count_bad(&marks)),
        )
}
