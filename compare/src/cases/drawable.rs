//! Random cases for decoding a drawable, with the refusal that is known from
//! how each case was made.

mod fault;

use super::Shape;
use super::decode;
use super::encode::random_pixels;
use crate::answer::{ROW_LENGTH, Row, TABLE_LENGTH};
use crate::files::block::set_number;
use crate::files::drawable::{tile_count, tile_shape};
use crate::files::{decodable_file, random_table, table_of};
use crate::random::Random;
use crate::tile;

/// How a case was made.
#[derive(Clone, Copy, Debug, PartialEq, Eq, PartialOrd, Ord)]
pub enum Kind {
    /// A row of a valid file.
    Read,
    /// The same, with bytes of the tiles changed.
    Damaged,
    /// A row for bytes that are no file.
    Loose,
    /// A number of the row made unusable.
    Field,
    /// The number of a row that is not in the table, or not used.
    RowNumber,
    /// A compression above 1.
    Compression,
    /// A pointer size that is neither 4 nor 8.
    PointerSize,
    /// The pointer size that the tile pointers do not have.
    OtherSize,
    /// A table, pixels or marks of the wrong length.
    WrongLength,
    /// A tile pointer, or the zero that closes them, that breaks its rule.
    Pointer,
    /// Up to four of the faults above.
    Several,
}

/// A number, and the place that it stands at.
pub type Refused = (u64, usize);

/// One call of the decoder.
#[derive(Clone, Debug)]
pub struct DrawableCase {
    pub kind: Kind,
    pub file: Vec<u8>,
    pub table: Vec<u32>,
    pub row: u32,
    pub compression: u32,
    pub pointer_size: u32,
    /// The lent pixels as they are before the call.
    pub pixels: Vec<u8>,
    /// The lent marks as they are before the call.
    pub marks: Vec<u8>,
    /// The number and place that the call gives, unless there are several
    /// faults.
    pub known: Option<Refused>,
}

impl DrawableCase {
    /// The case in a line, with only the file's first bytes.
    pub fn summary(&self) -> String {
        format!(
            "{:?}: row {} {:?} of {} numbers, compression {}, pointer size {}, {} and {} lent \
             bytes, file of {} bytes {:02X?}",
            self.kind,
            self.row,
            self.row_numbers(),
            self.table.len(),
            self.compression,
            self.pointer_size,
            self.pixels.len(),
            self.marks.len(),
            self.file.len(),
            &self.file[..self.file.len().min(1_000)]
        )
    }

    /// The row, where the table has it.
    pub fn row_numbers(&self) -> Option<&[u32]> {
        self.table.chunks(ROW_LENGTH).nth(self.row as usize)
    }
}

/// A call that is not refused, and what its faults are made from.
struct Base {
    case: DrawableCase,
    shape: Shape,
    /// Where the tile pointers begin, and how many bytes each has.
    place: usize,
    size: usize,
}

impl Base {
    /// A call for a row of the table, with its compression and pointer size.
    fn new(
        random: &mut Random,
        file: Vec<u8>,
        table: Vec<u32>,
        row: usize,
        [compression, pointer_size]: [u32; 2],
    ) -> Self {
        let numbers = &table[row * ROW_LENGTH..][..ROW_LENGTH];
        let shape = Shape::new(numbers[1], numbers[2], numbers[3]);
        let place = numbers[8] as usize;
        Base {
            case: DrawableCase {
                kind: Kind::Read,
                file,
                table,
                row: row as u32,
                compression,
                pointer_size,
                pixels: random.bytes(shape.pixels_length()),
                marks: random.bytes(tile_count(shape)),
                known: Some((0, 0)),
            },
            shape,
            place,
            size: pointer_size as usize,
        }
    }

    /// A row of a valid file, mostly with the file's compression.
    fn read(random: &mut Random) -> Self {
        let mut built = decodable_file(random);
        while built.known.rows.is_empty() {
            built = decodable_file(random);
        }
        let table = table_of(&built.known.rows);
        let row = random.below(built.known.rows.len());
        let [stored, pointer_size] = built.known.answer.form();
        let compression = match random.below(8) {
            0 => 1 - stored,
            _ => stored,
        };
        let form = [compression, pointer_size];
        let mut base = Base::new(random, built.bytes, table, row, form);
        if random.one_in(2) {
            base.move_row(random);
        }
        base
    }

    /// Puts the row anywhere into a table of random numbers.
    fn move_row(&mut self, random: &mut Random) {
        let mut table = random_table(random, TABLE_LENGTH);
        let any = random.below(128);
        let row = random.pick(&[0, 1, 126, 127, 127, any]);
        let old = self.case.row_numbers().expect("the row is in the table");
        table[row * ROW_LENGTH..][..ROW_LENGTH].copy_from_slice(old);
        (self.case.table, self.case.row) = (table, row as u32);
    }

    /// A row of any kind and depth, for tiles among bytes that are no file.
    fn loose(random: &mut Random) -> Self {
        let shape = loose_shape(random);
        let form = [random.below(2) as u32, random.pick(&[4, 8])];
        let (file, place) = loose_file(random, shape, form);
        let mut row: Row = random_table(random, ROW_LENGTH)
            .try_into()
            .expect("as long as a row");
        row[0] = random.between(1, 3) as u32;
        [row[1], row[2], row[3]] = [shape.width, shape.height, shape.depth];
        [row[8], row[9]] = [place as u32, tile_count(shape) as u32];
        let mut base = Base::new(random, file, table_of(&[row]), 0, form);
        base.move_row(random);
        base
    }

    /// Bytes in the tile pointers and the zero that closes them.
    fn pointers_length(&self) -> usize {
        self.size * (tile_count(self.shape) + 1)
    }

    /// Changes a few bytes anywhere but in the tile pointers.
    fn damage(&mut self, random: &mut Random) {
        const NOTABLE: [u8; 8] = [0, 1, 63, 126, 127, 128, 129, 255];
        let pointers = self.place..self.place + self.pointers_length();
        for _ in 0..random.between(1, 20) {
            let place = random.below(self.case.file.len());
            if !pointers.contains(&place) {
                let any = random.byte();
                let notable = random.pick(&NOTABLE);
                self.case.file[place] = random.pick(&[any, notable]);
            }
        }
    }
}

/// Sides of up to four tiles, and any depth.
fn loose_shape(random: &mut Random) -> Shape {
    let mut side = || match random.below(3) {
        0 => random.between(1, 9),
        1 => random.pick(&[63, 64, 65, 127, 128, 129]),
        _ => random.between(1, 200),
    };
    let (width, height) = (side() as u32, side() as u32);
    Shape::new(width, height, random.between(1, 4) as u32)
}

/// Tiles of the compression, and before or behind them their pointers of the
/// size, whose place is given.
fn loose_file(
    random: &mut Random,
    shape: Shape,
    [compression, pointer_size]: [u32; 2],
) -> (Vec<u8>, usize) {
    let length = random.between(1, 40);
    let mut file = random.bytes(length);
    let tiles: Vec<Vec<u8>> = (0..tile_count(shape))
        .map(|tile| random_window(random, tile_shape(shape, tile), compression))
        .collect();
    let tiles_length: usize = tiles.iter().map(Vec::len).sum();
    let pointers_first = random.one_in(2);
    let size = pointer_size as usize;
    let mut pointers = vec![0; size * (tiles.len() + 1)];
    let (place, mut start) = match pointers_first {
        true => (length, length + pointers.len()),
        false => (length + tiles_length, length),
    };
    for (i, tile) in tiles.iter().enumerate() {
        set_number(&mut pointers, size * i, size, start as u64);
        start += tile.len();
    }
    file.extend(match pointers_first {
        true => [pointers, tiles.concat()].concat(),
        false => [tiles.concat(), pointers].concat(),
    });
    let tail = random.pick(&[0, 0, 1, 30]);
    file.extend(random.bytes(tail));
    (file, place)
}

/// The bytes, at least one, of a tile of the shape in a file of the
/// compression: mostly good, and seldom longer than a window may be.
pub fn random_window(random: &mut Random, shape: Shape, compression: u32) -> Vec<u8> {
    let tail = random.pick(&[0, 0, 1, 9]);
    let kind = match (compression, random.below(12)) {
        (0, 0..=7) => return random.bytes(shape.pixels_length() + tail),
        (0, _) => decode::Kind::Plain,
        (_, 0..=5) => {
            let pixels = random_pixels(random, shape);
            let window = tile::encode_pixels(&pixels, shape.depth as usize);
            return [window, random.bytes(tail)].concat();
        }
        (_, 6 | 7) => decode::Kind::Valid,
        (_, 8) => decode::Kind::Cut,
        (_, 9) => decode::Kind::Overrun,
        (_, 10) => decode::Kind::Noise,
        (_, _) => random.pick(&[
            decode::Kind::Limit,
            decode::Kind::Plain,
            decode::Kind::Valid,
        ]),
    };
    let window = decode::case(random, kind, shape).window;
    match window.is_empty() {
        true => vec![random.byte()],
        false => window,
    }
}

/// A case of any kind.
pub fn random_case(random: &mut Random) -> DrawableCase {
    let kind = match random.below(24) {
        0..=6 => Kind::Read,
        7 | 8 => Kind::Damaged,
        9..=11 => Kind::Loose,
        12 | 13 => Kind::Field,
        14 => Kind::RowNumber,
        15 => Kind::Compression,
        16 => Kind::PointerSize,
        17 => Kind::OtherSize,
        18 => Kind::WrongLength,
        19..=21 => Kind::Pointer,
        _ => Kind::Several,
    };
    case(random, kind)
}

/// A case of the kind.
pub fn case(random: &mut Random, kind: Kind) -> DrawableCase {
    let is_loose = kind == Kind::Loose || kind != Kind::Read && random.one_in(3);
    let mut base = match is_loose {
        true => Base::loose(random),
        false => Base::read(random),
    };
    match kind {
        Kind::Read | Kind::Loose => {}
        Kind::Damaged => base.damage(random),
        _ => base.spoil(random, kind),
    }
    base.case.kind = kind;
    base.case
}
