//! Full tables: 48 layers of one grey pixel, each with a mask, and 32 channels,
//! all of them with names.

use std::array;

use xcf_compare::answer::{ReadAnswer, Row, TABLE_LENGTH, WriteAnswer};
use xcf_compare::files::block::set_number;
use xcf_compare::files::laid::{END, image_start, lay, pointers, version_11, words};
use xcf_compare::files::version::pointer_size;
use xcf_compare::guard::difference;
use xcf_compare::implementation::Implementation;
use xcf_compare::names::{NOT_UTF8, name_flag};

pub const ROWS: usize = 128;

/// A version, and where in its files the layers' and the channels' pointers
/// start, the hierarchy that all drawables share, and its only tile pointer.
pub struct Form {
    version: u32,
    layer_pointers: usize,
    channel_pointers: usize,
    hierarchy: usize,
    tile_pointer: u32,
}

/// Pointers of 4 and of 8 bytes.
pub const FORMS: [Form; 2] = [
    Form {
        version: 0,
        layer_pointers: 34,
        channel_pointers: 230,
        hierarchy: 362,
        tile_pointer: 390,
    },
    Form {
        version: 11,
        layer_pointers: 38,
        channel_pointers: 430,
        hierarchy: 694,
        tile_pointer: 730,
    },
];

/// The first row of a channel.
const FIRST_CHANNEL: usize = 96;

impl Form {
    fn pointer_size(&self) -> usize {
        pointer_size(self.version)
    }

    /// The answer to reading such a file.
    fn read(&self) -> ReadAnswer {
        ReadAnswer::accepted([1, 1, 1, self.version.into(), 0], ROWS)
    }

    /// The image, whose pointers are to be set, and the hierarchy and the level
    /// that all drawables share.
    fn start(&self) -> Vec<u8> {
        let size = self.pointer_size();
        let image = match size {
            8 => version_11::image_start(1),
            _ => image_start(b"file\0", 1),
        };
        let level = self.hierarchy + 12 + 2 * size;
        lay(&[
            (0, &image),
            (self.layer_pointers - 8, &words(&END)),
            (self.layer_pointers, &vec![0; size * 49]),
            (self.channel_pointers, &vec![0; size * 33]),
            (self.hierarchy, &words(&[1, 1, 1])),
            (self.hierarchy + 12, &self.pointers(&[level, 0])),
            (level, &words(&[1, 1])),
            (self.tile_pointer as usize, &self.pointers(&[1, 0])),
        ])
    }

    fn pointers(&self, places: &[usize]) -> Vec<u8> {
        let places = places.iter().map(|&place| place as u64);
        pointers(self.pointer_size(), places)
    }

    /// The place of the image's pointer to a row; a mask has none.
    fn pointer(&self, row: usize) -> Option<usize> {
        let size = self.pointer_size();
        match row {
            FIRST_CHANNEL.. => Some(self.channel_pointers + size * (row - FIRST_CHANNEL)),
            _ if row % 2 == 1 => None,
            _ => Some(self.layer_pointers + size * (row / 2)),
        }
    }
}

pub struct Full<'a> {
    names: [&'a [u8]; ROWS],
}

impl<'a> Full<'a> {
    /// The names go to the layers, then to the masks, then to the channels,
    /// and begin again where they end: 32 or fewer go to each kind.
    pub fn new(names: &[&'a [u8]]) -> Self {
        let name = |row| names[turn(row) % names.len()];
        Full {
            names: array::from_fn(name),
        }
    }

    /// A row without its places. Layers are visible and apply their masks.
    fn row(&self, index: usize) -> Row {
        let (kind, flags) = match index {
            FIRST_CHANNEL.. => (3, 0),
            _ if index % 2 == 1 => (2, 0),
            _ => (1, 1 + 2),
        };
        let name = self.names[index];
        let flags = flags + name_flag(name);
        let (length, owner) = (name.len() as u32, index as u32 - u32::from(kind == 2));
        [
            kind, 1, 1, 1, 2, 0, length, 0, 0, 1, 255, flags, 0, 0, 0, owner,
        ]
    }

    /// The file, and the table that a reader leaves.
    fn file(&self, form: &Form) -> (Vec<u8>, Vec<u32>) {
        let mut file = form.start();
        let mut table = Vec::with_capacity(TABLE_LENGTH);
        for index in 0..ROWS {
            let mut row = self.row(index);
            if let Some(pointer) = form.pointer(index) {
                let place = file.len() as u64;
                set_number(&mut file, pointer, form.pointer_size(), place);
            }
            let sides_and_type = [1, 1, 2];
            let is_layer = row[0] == 1;
            put(&mut file, &sides_and_type[..2 + usize::from(is_layer)]);
            row[5] = file.len() as u32 + 4;
            put_string(&mut file, self.names[index], turn(index));
            row[7] = file.len() as u32;
            row[8] = form.tile_pointer;
            put(&mut file, &END);
            file.extend(form.pointers(&[form.hierarchy]));
            if is_layer {
                let mask = file.len() + form.pointer_size();
                file.extend(form.pointers(&[mask]));
            }
            table.extend(row);
        }
        (file, table)
    }

    /// The bytes of the names, and the table that a writer takes with them.
    fn lent(&self) -> (Vec<u8>, Vec<u32>) {
        let mut names = Vec::new();
        let mut table = Vec::with_capacity(TABLE_LENGTH);
        for (index, name) in self.names.iter().enumerate() {
            let mut row = self.row(index);
            row[5] = names.len() as u32;
            names.extend_from_slice(name);
            table.extend(row);
        }
        (names, table)
    }

    /// Asserts that a reader gives each row its flag, and all else of answer
    /// and table whatever the names are.
    pub fn assert_read(&self, form: &Form, by: &Implementation) {
        let (file, expected) = self.file(form);
        let mut table = vec![0xA5A5_A5A5; TABLE_LENGTH];
        assert_eq!((by.read)(&file, &mut table), form.read(), "{}", by.name);
        self.assert_same(&table, &expected, by);
    }

    /// Asserts that a writer takes the rows with their flags, that names and
    /// rows come back, and that each row with the other flag is refused.
    pub fn assert_written(&self, by: &Implementation) {
        let (names, mut lent) = self.lent();
        let write = |table: &[u32], output: &mut [u8]| {
            (by.write)(1, 1, 1, table, &names, &[0; ROWS], output)
        };
        let mut output = vec![0xA5; names.len() + 200 * ROWS];
        let answer = write(&lent, &mut output);
        assert_eq!((answer.number, answer.place), (0, 0), "{}", by.name);
        self.assert_reads_back(&output[..answer.length as usize], &lent, by);
        for row in 0..ROWS {
            lent[16 * row + 11] ^= NOT_UTF8;
            let (answer, name) = (write(&lent, &mut []), self.names[row]);
            let refused = WriteAnswer::refused_at(17, row);
            assert_eq!(answer, refused, "{}: {name:02X?}", by.name);
            lent[16 * row + 11] ^= NOT_UTF8;
        }
    }

    /// Asserts that a written file has the names, and the rows but for their
    /// places.
    fn assert_reads_back(&self, file: &[u8], lent: &[u32], by: &Implementation) {
        let mut table = vec![0xA5A5_A5A5; TABLE_LENGTH];
        let answer = (by.read)(file, &mut table);
        assert_eq!((answer.number, answer.rows), (0, ROWS as u64));
        let (rows, _) = table.as_chunks_mut::<16>();
        let lent_rows: &[Row] = lent.as_chunks().0;
        for (index, row) in rows.iter_mut().enumerate() {
            let name = &file[row[5] as usize..][..row[6] as usize];
            assert_eq!(name, self.names[index], "{}", by.name);
            for place in [5, 7, 8] {
                row[place] = lent_rows[index][place];
            }
        }
        self.assert_same(&table, lent, by);
    }

    fn assert_same(&self, table: &[u32], expected: &[u32], by: &Implementation) {
        if let Some(place) = difference(table, expected) {
            let (row, field, given) = (place / 16, place % 16, table[place]);
            let (by, name) = (by.name, self.names[row]);
            panic!("{by}: field {field} of row {row} is {given}: {name:02X?}");
        }
    }
}

/// The number of a row among the layers, then the masks, then the channels.
fn turn(row: usize) -> usize {
    match row {
        FIRST_CHANNEL.. => row,
        _ => row / 2 + FIRST_CHANNEL / 2 * (row % 2),
    }
}

fn put(file: &mut Vec<u8>, words: &[u32]) {
    for word in words {
        file.extend_from_slice(&word.to_be_bytes());
    }
}

/// Appends a string; the length of an empty name is 0 and 1 by turns.
fn put_string(file: &mut Vec<u8>, name: &[u8], turn: usize) {
    if name.is_empty() && turn.is_multiple_of(2) {
        put(file, &[0]);
    } else {
        put(file, &[name.len() as u32 + 1]);
        file.extend_from_slice(name);
        file.push(0);
    }
}
