//! Random tables, with names and pixels, for comparing the reference writer
//! with the library.

mod fault;
mod picture;

pub use fault::Fault;

use crate::answer::{Row, Write, WriteAnswer};
use crate::guard::Guarded;
use crate::random::Random;
use fault::LAST_TEST;
use picture::Picture;

/// How a case was made.
#[derive(Clone, Copy, Debug, PartialEq, Eq, PartialOrd, Ord)]
pub enum Kind {
    /// A picture that is written.
    Valid,
    /// The same with one fault.
    Single(Fault),
    /// Two to four faults.
    Several,
}

/// One call of the writer.
#[derive(Clone, Debug)]
pub struct TableCase {
    pub kind: Kind,
    pub width: u32,
    pub height: u32,
    pub base: u32,
    pub table: Vec<u32>,
    pub names: Vec<u8>,
    pub pixels: Vec<u8>,
    /// The lent output as it is before the call.
    pub output: Vec<u8>,
    /// What the call gives, unless there are several faults.
    pub known: Option<Known>,
}

/// The answer, and the file; a refusal has none.
#[derive(Clone, Debug, PartialEq, Eq)]
pub struct Known {
    pub answer: WriteAnswer,
    pub file: Vec<u8>,
}

impl TableCase {
    /// The case in a line, with the rows up to the first unused one.
    pub fn summary(&self) -> String {
        format!(
            "{:?}: canvas {} by {}, base {}, {} lent numbers, {} bytes of names, {} of pixels, {} \
             of output, rows {:?}",
            self.kind,
            self.width,
            self.height,
            self.base,
            self.table.len(),
            self.names.len(),
            self.pixels.len(),
            self.output.len(),
            &self.rows()[..self.used()]
        )
    }

    /// Writes into the output between its guards; gives the answer and both.
    pub fn write(&self, write: Write) -> (WriteAnswer, Guarded<u8>) {
        let mut output = Guarded::new(&self.output);
        let TableCase {
            width,
            height,
            base,
            ..
        } = *self;
        let (table, names, pixels) = (&self.table, &self.names, &self.pixels);
        let answer = write(width, height, base, table, names, pixels, output.lent());
        (answer, output)
    }

    /// All rows that the table has, used or not.
    pub fn rows(&self) -> &[Row] {
        self.table.as_chunks().0
    }

    fn rows_mut(&mut self) -> &mut [Row] {
        self.table.as_chunks_mut().0
    }

    /// How many rows there are before the first unused one.
    pub fn used(&self) -> usize {
        let unused = self.rows().iter().position(|row| row[0] == 0);
        unused.unwrap_or(self.rows().len())
    }

    /// The bytes of a row's name.
    pub fn name(&self, row: &Row) -> &[u8] {
        &self.names[row[5] as usize..][..row[6] as usize]
    }

    /// Puts a row before another one; the last row is lost.
    fn insert(&mut self, index: usize, row: Row) {
        let later = &mut self.rows_mut()[index..];
        later.rotate_right(1);
        later[0] = row;
    }
}

/// A case of any kind.
pub fn random_case(random: &mut Random) -> TableCase {
    match random.below(20) {
        0..=7 => valid_case(random),
        8..=17 => {
            let fault = random.pick(&Fault::ALL);
            single_case(random, fault)
        }
        _ => several_case(random),
    }
}

/// A case that is accepted.
pub fn valid_case(random: &mut Random) -> TableCase {
    Picture::random(random).case(random)
}

/// A case with one fault.
fn single_case(random: &mut Random, fault: Fault) -> TableCase {
    loop {
        let mut case = valid_case(random);
        if let Some((number, place)) = fault.spoil(random, &mut case) {
            case.kind = Kind::Single(fault);
            case.known = Some(Known {
                answer: WriteAnswer::refused_at(number, place),
                file: Vec::new(),
            });
            return case;
        }
    }
}

/// A case with several faults, often none that the first of the writer's tests
/// find, so that the later tests decide too.
fn several_case(random: &mut Random) -> TableCase {
    let mut case = valid_case(random);
    let first_test = random.below(LAST_TEST);
    let mut wanted = random.between(2, 4);
    while wanted > 0 {
        let test = random.between(first_test, LAST_TEST);
        let spoiled = Fault::of_test(random, test).spoil(random, &mut case);
        wanted -= usize::from(spoiled.is_some());
    }
    case.kind = Kind::Several;
    case.known = None;
    case
}
