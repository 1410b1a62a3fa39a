//! The rules for reading, one named case after the other, held against the
//! implementations with the answers written out.

mod acceptances;
mod floating;
mod long_pointers;
mod maps;
mod order;
mod refusals;
mod version_11;

use xcf_compare::answer::{ReadAnswer, Row, TABLE_LENGTH};
use xcf_compare::implementation::ALL;

/// What the tables hold before a call.
const FILLING: u32 = 0xA5A5_A5A5;

/// Asserts, with all, that a file is refused and the table made zero.
fn assert_refused(file: &[u8], number: u64, place: usize) {
    for by in ALL {
        let mut table = vec![FILLING; TABLE_LENGTH];
        let answer = (by.read)(file, &mut table);
        assert_eq!(answer, ReadAnswer::refused(number, place as u64));
        assert!(table == [0; TABLE_LENGTH], "{number} at {place}");
    }
}

/// Asserts, with all, that a file is accepted with the image's five numbers
/// (sides, base, version, compression) and the rows, and no others.
fn assert_accepted(file: &[u8], image: [u64; 5], rows: &[Row]) {
    let expected = ReadAnswer::accepted(image, rows.len());
    for by in ALL {
        let mut table = vec![FILLING; TABLE_LENGTH];
        let answer = (by.read)(file, &mut table);
        assert_eq!(answer, expected);
        let used = rows.as_flattened();
        assert_eq!(&table[..used.len()], used);
        assert!(table[used.len()..].iter().all(|&number| number == 0));
    }
}

/// Asserts, with all, that a table of another length is left as lent.
fn assert_wrong_table(file: &[u8], length: usize) {
    for by in ALL {
        let mut table = vec![FILLING; length];
        assert_eq!((by.read)(file, &mut table), ReadAnswer::refused(11, 0));
        assert!(table.iter().all(|&number| number == FILLING));
    }
}
