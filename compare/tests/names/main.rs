//! Names that are well-formed UTF-8 and names that are not, which flag 32 of a
//! row tells apart. The library is held to Rust's own rule on every name of up
//! to three bytes, on the edges of those of four and on a million others, and
//! all implementations to named cases with the answers written out.

mod full;
mod named;
mod read;
mod written;

use full::Full;
use xcf_compare::names::random_name;
use xcf_compare::random::Random;
use xcf_compare::report;

/// How many names were held to the rule.
#[derive(Debug, Default, PartialEq, Eq)]
struct Count {
    names: usize,
    well_formed: usize,
}

/// Runs an assertion on tables of the names, so many in each; what `title` says
/// of them is printed with their count.
fn hold(
    title: &str,
    mut names: impl Iterator<Item = Vec<u8>>,
    at_once: usize,
    assert: impl Fn(&Full),
) -> Count {
    let mut count = Count::default();
    for table in 0.. {
        let mut some: Vec<Vec<u8>> = names.by_ref().take(at_once).collect();
        if some.is_empty() {
            break;
        }
        // Other names go to the layers in each table.
        let first = table % some.len();
        some.rotate_left(first);
        let some: Vec<&[u8]> = some.iter().map(Vec::as_slice).collect();
        assert(&Full::new(&some));
        count.names += some.len();
        let is_utf8 = |name: &&&[u8]| str::from_utf8(name).is_ok();
        count.well_formed += some.iter().filter(is_utf8).count();
    }
    let Count { names, well_formed } = count;
    report(&format!(
        "names {title}: {names}, of which {well_formed} are well-formed"
    ));
    count
}

/// The sequences of so many bytes, in order.
fn sequences(length: usize) -> impl Iterator<Item = Vec<u8>> {
    (0..1_u32 << (8 * length)).map(move |number| number.to_be_bytes()[4 - length..].to_vec())
}

/// How many sequences of one, two and three bytes are well-formed: there are
/// 128 characters of one byte, 1,920 of two and 61,440 of three.
const WELL_FORMED: [usize; 3] = [
    128,
    128 * 128 + 1_920,
    128 * 128 * 128 + 2 * 128 * 1_920 + 61_440,
];

/// First bytes of each length and of none, and the ends of the ranges that the
/// bytes behind them have.
const FIRST: [u8; 15] = [
    0x7F, 0xC1, 0xC2, 0xDF, 0xE0, 0xED, 0xEF, 0xF0, 0xF1, 0xF2, 0xF3, 0xF4, 0xF5, 0xF6, 0xF7,
];
const BEHIND: [u8; 8] = [0x7F, 0x80, 0x8F, 0x90, 0x9F, 0xA0, 0xBF, 0xC0];

/// The sequences of a first byte and three behind it.
fn edges() -> impl Iterator<Item = Vec<u8>> {
    let behind = |k: usize| [k / 64, k / 8 % 8, k % 8].map(|k| BEHIND[k]);
    let places = FIRST
        .into_iter()
        .flat_map(|first| (0..512).map(move |k| (first, k)));
    places.map(move |(first, k)| [&[first][..], &behind(k)].concat())
}

/// By first byte: 7F, C2 and DF, E0, ED, EF, F0, F1 to F3, F4.
const EDGES: Count = Count {
    names: 15 * 512,
    well_formed: 1 + 2 * 6 + 2 * 6 + 4 * 6 + 6 * 6 + 4 * 36 + 3 * 6 * 36 + 2 * 36,
};

/// So many names, whole and broken, of up to 1,024 bytes.
fn random_names(seed: u64, count: usize) -> impl Iterator<Item = Vec<u8>> {
    let mut random = Random::new(seed);
    (0..count).map(move |_| {
        let most = random.pick(&[4, 12, 40, 40, 200, 1_024]);
        let length = random.between(0, most);
        random_name(&mut random, length)
    })
}
