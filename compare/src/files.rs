//! Random files for comparing the reference reader with the library.

pub mod block;
mod builder;
mod damage;
pub(crate) mod drawable;
mod example;
mod fault;
pub mod laid;
mod property;
pub mod version;
mod widened;
mod writer;

pub use builder::{BuiltFile, decodable_file, random_file, random_sides};
pub use example::EXAMPLE;
pub use widened::widened;
pub use writer::{DrawableFields, ImageFields, Layer, Writer, write_file};

use crate::answer::{ReadAnswer, Row, TABLE_LENGTH, WRONG_LENGTH};
use crate::random::Random;
use version::{PRECISION, has_precision, tag};

/// Bytes per pixel of the layer types 0 to 5. Not shared with the reference: a
/// mistake there must not be one in the files that test it.
pub const DEPTHS: [u32; 6] = [3, 4, 1, 2, 1, 2];

/// How a file was made.
#[derive(Clone, Copy, Debug, PartialEq, Eq, PartialOrd, Ord)]
pub enum Kind {
    /// Any structures in any order.
    Valid,
    /// A valid file with one fault.
    Fault,
    /// A valid file with up to four faults or other words in its fields,
    /// perhaps also cut.
    Fields,
    /// A valid file with a byte changed.
    Byte,
    /// A valid file with any four bytes changed.
    Word,
    /// A valid file cut short.
    Cut,
    /// A valid file with bytes inserted or removed.
    Shifted,
    /// Any file, and a table of the wrong length.
    WrongTable,
    /// Random bytes, perhaps behind the start of a file.
    Noise,
    /// Words that occur in files, behind the start of a file.
    Words,
}

/// One call of the reader.
#[derive(Clone, Debug)]
pub struct FileCase {
    pub kind: Kind,
    pub file: Vec<u8>,
    /// The lent table as it is before the call.
    pub table: Vec<u32>,
    /// What the call gives, where that is known from how the file was made.
    pub known: Option<Known>,
}

/// The answer, and the used rows after the call; a refusal has none.
#[derive(Clone, Debug, PartialEq, Eq)]
pub struct Known {
    pub answer: ReadAnswer,
    pub rows: Vec<Row>,
}

impl Known {
    fn refused((number, place): fault::Refused) -> Self {
        Known {
            answer: ReadAnswer::refused(number, place),
            rows: Vec::new(),
        }
    }
}

impl FileCase {
    /// The case in a line, with only the file's first bytes.
    pub fn summary(&self) -> String {
        format!(
            "{:?}: {} lent numbers, file of {} bytes {:02X?}",
            self.kind,
            self.table.len(),
            self.file.len(),
            &self.file[..self.file.len().min(1_000)]
        )
    }
}

/// The table with these rows and no others.
pub fn table_of(rows: &[Row]) -> Vec<u32> {
    let mut table = rows.concat();
    table.resize(TABLE_LENGTH, 0);
    table
}

/// Random numbers for a table.
pub fn random_table(random: &mut Random, length: usize) -> Vec<u32> {
    (0..length).map(|_| random.word() as u32).collect()
}

/// A case of any kind.
pub fn random_case(random: &mut Random) -> FileCase {
    let kind = match random.below(40) {
        0..=7 => Kind::Valid,
        8..=17 => Kind::Fault,
        18..=25 => Kind::Fields,
        26 | 27 => Kind::Byte,
        28..=30 => Kind::Word,
        31..=33 => Kind::Cut,
        34 | 35 => Kind::Shifted,
        36 => Kind::WrongTable,
        37 => Kind::Noise,
        _ => Kind::Words,
    };
    case(random, kind)
}

/// A case of the kind.
pub fn case(random: &mut Random, kind: Kind) -> FileCase {
    let (file, known) = match kind {
        Kind::WrongTable => return wrong_table_case(random),
        Kind::Noise => (noise(random), None),
        Kind::Words => (words(random), None),
        _ => changed_file(random, kind),
    };
    FileCase {
        kind,
        file,
        table: random_table(random, TABLE_LENGTH),
        known,
    }
}

/// A valid file, changed as the kind says.
fn changed_file(random: &mut Random, kind: Kind) -> (Vec<u8>, Option<Known>) {
    let mut built = random_file(random);
    let mut known = None;
    match kind {
        Kind::Fault => known = Some(faulty(random, &mut built)),
        Kind::Fields => change_fields(random, &mut built),
        Kind::Byte => damage::change_byte(random, &mut built),
        Kind::Word => damage::change_word(random, &mut built),
        Kind::Cut => damage::cut(random, &mut built),
        Kind::Shifted => damage::shift(random, &mut built),
        _ => known = Some(built.known),
    }
    (built.bytes, known)
}

/// Puts a fault in one field; gives what a reader gives if the file was valid.
fn faulty(random: &mut Random, built: &mut BuiltFile) -> Known {
    loop {
        let index = damage::pick_field(random, &built.fields);
        if let Some(refused) = fault::spoil(random, built, index) {
            return Known::refused(refused);
        }
    }
}

/// Changes up to four fields that often lie side by side, and then perhaps
/// cuts the file, so that the first of several faults decides.
fn change_fields(random: &mut Random, built: &mut BuiltFile) {
    let first = damage::pick_field(random, &built.fields);
    let rest = built.fields.len() - first;
    let span = random.pick(&[1, 2, 2, 6, rest]).min(rest);
    for _ in 0..random.between(1, 4) {
        let index = first + random.below(span);
        if random.one_in(2) {
            fault::spoil(random, built, index);
        } else {
            damage::change_field(random, built, index);
        }
    }
    match random.below(6) {
        0 => damage::cut(random, built),
        1 => damage::cut_at(random, built, first),
        _ => {}
    }
}

fn wrong_table_case(random: &mut Random) -> FileCase {
    let file = match random.below(3) {
        0 => noise(random),
        _ => random_file(random).bytes,
    };
    let any = random.below(TABLE_LENGTH);
    let length = random.pick(&[0, 1, 16, any, 2_047, 2_049, 4_096]);
    FileCase {
        kind: Kind::WrongTable,
        file,
        table: random_table(random, length),
        known: Some(Known::refused((WRONG_LENGTH, 0))),
    }
}

/// Random bytes, perhaps behind the bytes that every file of a version starts
/// with.
fn noise(random: &mut Random) -> Vec<u8> {
    let start: &[u8] = random.pick(&[
        b"",
        b"gimp xcf ",
        b"gimp xcf file\0",
        b"gimp xcf v003\0",
        b"gimp xcf v011\0",
    ]);
    let length = random.below(200);
    [start, &random.bytes(length)].concat()
}

/// A canvas, then words such as occur in property lists, structures and
/// pointers.
fn words(random: &mut Random) -> Vec<u8> {
    let version = random.pick(&[1, 1, 11]);
    let mut file = [&b"gimp xcf "[..], &tag(version)].concat();
    let side = random.pick(&[1, 1, 64, 65]);
    let base = random.pick(&[0, 1, 1, 2]);
    let mut words = vec![side, side, base];
    if has_precision(version) {
        words.push(PRECISION);
    }
    let count = random.between(4, 60);
    let length = file.len() + 4 * (words.len() + count);
    for _ in 0..count {
        words.push(match random.below(8) {
            0..=3 => 0,
            4 => side,
            5 => random.between(1, 4) as u32,
            6 => random.below(32) as u32,
            _ => 14 + 4 * random.below(length / 4) as u32,
        });
    }
    file.extend(words.iter().flat_map(|word| word.to_be_bytes()));
    file
}
