//! Rows with a number that is wrong, and those that belong to it made right.

use super::Fault;
use crate::answer::Row;
use crate::files::DEPTHS;
use crate::names::NOT_UTF8;
use crate::numbers::{above, bad_side, other, other_side, other_type};
use crate::random::Random;
use crate::tables::TableCase;

/// Makes a number of a row wrong; gives the row.
pub fn spoil(fault: Fault, random: &mut Random, case: &mut TableCase) -> Option<usize> {
    let index = pick_row(fault, random, case)?;
    let names_length = case.names.len() as u32;
    let row = &mut case.rows_mut()[index];
    match fault {
        Fault::Kind => row[0] = above(random, 3),
        Fault::LayerSide => spoil_side(random, row, |random, _| bad_side(random)),
        Fault::MaskSide | Fault::ChannelSide => spoil_side(random, row, other_side),
        Fault::Depth => row[3] = other(random, row[3]),
        Fault::LayerType => {
            row[4] = other_type(random, row[4]);
            row[3] = DEPTHS.get(row[4] as usize).copied().unwrap_or(row[3]);
        }
        Fault::OtherType => row[4] = other(random, row[4]),
        Fault::NameLength => {
            row[6] = 1_025 + random.pick(&[0, 0, 1, 900]);
            let end = row[5] as usize + row[6] as usize;
            let length = case.names.len().max(end);
            case.names.resize(length, b'n');
        }
        Fault::NamePlace => {
            // Wrong as well if a sum of 32 bits wraps around.
            let wrapping = 0_u32.wrapping_sub(row[6].max(1));
            let beyond = above(random, names_length.saturating_sub(row[6]));
            row[5] = random.pick(&[beyond, beyond, wrapping]);
        }
        Fault::NameFlag => row[11] ^= NOT_UTF8,
        Fault::PropertiesPlace => row[7] = other(random, 0),
        Fault::TilesPlace => row[8] = other(random, 0),
        Fault::TileCount => row[9] = other(random, row[9]),
        Fault::Opacity => row[10] = above(random, 255),
        Fault::Flag => {
            let others = if row[0] == 1 { 4 } else { 2 };
            let any = 1 << random.between(6, 31);
            row[11] |= random.pick(&[others, 16, any]);
        }
        Fault::Apply => row[11] |= 2,
        Fault::MaskOffset | Fault::ChannelOffset => {
            let offset = &mut row[random.between(12, 13)];
            *offset = other(random, *offset);
        }
        Fault::LayerMode => row[14] = above(random, 21),
        Fault::OtherMode => row[14] = above(random, 0),
        Fault::Owner => row[15] = other(random, row[15]),
        _ => unreachable!("{fault:?} is not one number's"),
    }
    Some(index)
}

/// A row that can have the fault.
fn pick_row(fault: Fault, random: &mut Random, case: &TableCase) -> Option<usize> {
    let kinds: &[u32] = match fault {
        Fault::LayerSide | Fault::LayerType | Fault::Apply | Fault::LayerMode => &[1],
        Fault::MaskSide | Fault::MaskOffset => &[2],
        Fault::ChannelSide | Fault::ChannelOffset => &[3],
        Fault::OtherType | Fault::OtherMode => &[2, 3],
        // Without its mask a layer could not apply it.
        Fault::Kind => &[1, 3],
        _ => &[1, 2, 3],
    };
    let rows = &case.rows()[..case.used()];
    let has_mask = |index: usize| rows.get(index + 1).is_some_and(|next| next[0] == 2);
    let mut able: Vec<usize> = (0..rows.len())
        .filter(|&index| kinds.contains(&rows[index][0]))
        .filter(|&index| fault != Fault::Apply || !has_mask(index))
        .collect();
    if fault == Fault::Kind && rows.len() < case.rows().len() {
        able.push(rows.len());
    }
    (!able.is_empty()).then(|| random.pick(&able))
}

/// Changes a side, and the tile count to what 32 bits make of the sides.
fn spoil_side(random: &mut Random, row: &mut Row, side: impl Fn(&mut Random, u32) -> u32) {
    let field = random.between(1, 2);
    row[field] = side(random, row[field]);
    let [across, down] = [row[1], row[2]].map(|side| side.div_ceil(64));
    row[9] = across.wrapping_mul(down);
}
