//! Rows that are wrong beside others. Rows behind the lowest bad one may be
//! bad as well.

use crate::answer::Row;
use crate::random::Random;
use crate::tables::TableCase;

/// A row for a place in the table, without a name: a layer of one pixel, or a
/// mask or channel with the canvas's sides.
fn small_row(case: &TableCase, kind: u32, index: usize) -> Row {
    let [sides, form] = match kind {
        1 => [[1, 1], [[3, 0], [1, 2]][case.base.min(1) as usize]],
        _ => [[case.width, case.height], [1, 2]],
    };
    let count = sides[0].div_ceil(64).wrapping_mul(sides[1].div_ceil(64));
    let owner = index as u32;
    [
        kind, sides[0], sides[1], form[0], form[1], 0, 0, 0, 0, count, 255, 1, 0, 0, 0, owner,
    ]
}

/// How many rows are of the kind.
fn count(case: &TableCase, kind: u32) -> usize {
    let of_kind = |row: &&Row| row[0] == kind;
    case.rows().iter().filter(of_kind).count()
}

/// Where the channels start, or would.
fn first_channel(case: &TableCase) -> usize {
    let channel = case.rows().iter().position(|row| row[0] == 3);
    channel.unwrap_or(case.used())
}

/// Sets a number of an unused row.
pub fn use_unused(random: &mut Random, case: &mut TableCase) -> Option<usize> {
    let used = case.used();
    let last = case.rows().len().checked_sub(1)?;
    if used > last {
        return None;
    }
    let any = random.between(used, last);
    let index = random.pick(&[used, any, last]);
    let any = random.word() as u32 | 1;
    case.rows_mut()[index][random.between(1, 15)] = random.pick(&[1, 1 << 31, any]);
    Some(index)
}

/// Puts unused rows before a used one that is no mask, or a used row behind
/// them.
pub fn leave_gap(random: &mut Random, case: &mut TableCase) -> Option<usize> {
    let used = case.used();
    let rows = case.rows().len();
    if random.one_in(2) && used + 1 < rows {
        let index = random.between(used + 1, rows - 1);
        let row = small_row(case, 3, index);
        case.rows_mut()[index] = row;
        return Some(index);
    }
    let starts = (0..used).filter(|&index| case.rows()[index][0] != 2);
    let starts: Vec<usize> = starts.collect();
    if starts.is_empty() {
        return None;
    }
    let start = random.pick(&starts);
    let count = random.pick(&[1, 1, 2, 5]);
    for _ in 0..count {
        case.insert(start, [0; 16]);
    }
    (start + count < rows).then_some(start + count)
}

/// Adds layers up to a 49th.
pub fn add_layers(case: &mut TableCase) -> Option<usize> {
    let end = first_channel(case);
    let last = end + 48_usize.checked_sub(count(case, 1))?;
    add_rows(case, 1, end, last)
}

/// Adds channels up to a 33rd.
pub fn add_channels(case: &mut TableCase) -> Option<usize> {
    let end = case.used();
    let last = end + 32_usize.checked_sub(count(case, 3))?;
    add_rows(case, 3, end, last)
}

/// Adds rows of the kind from one place to another; gives the last.
fn add_rows(case: &mut TableCase, kind: u32, first: usize, last: usize) -> Option<usize> {
    if last >= case.rows().len() {
        return None;
    }
    for index in first..=last {
        let row = small_row(case, kind, index);
        case.insert(index, row);
    }
    Some(last)
}

/// Adds a layer behind a channel.
pub fn add_late_layer(random: &mut Random, case: &mut TableCase) -> Option<usize> {
    let (first, used) = (first_channel(case), case.used());
    if first >= used {
        return None;
    }
    let index = random.between(first + 1, used);
    add_rows(case, 1, index, index)
}

/// Adds a mask before all rows, behind a mask or behind a channel.
pub fn add_mask(random: &mut Random, case: &mut TableCase) -> Option<usize> {
    let rows = case.rows();
    let is_behind_layer = |index: usize| index > 0 && rows[index - 1][0] == 1;
    let places = (0..=case.used()).filter(|&index| !is_behind_layer(index));
    let places: Vec<usize> = places.filter(|&index| index < rows.len()).collect();
    if places.is_empty() {
        return None;
    }
    let index = random.pick(&places);
    let before = rows[index.saturating_sub(1)];
    let mut row = small_row(case, 2, index);
    if index > 0 {
        // All that a mask of the row before, or of its layer, would have.
        [row[1], row[2], row[9]] = [before[1], before[2], before[9]];
        [row[12], row[13]] = [before[12], before[13]];
        row[15] = random.pick(&[before[15], index as u32 - 1]);
    }
    case.insert(index, row);
    Some(index)
}

/// Sets a flag of two rows of the kinds, and of no other; gives the second.
pub fn flag_two(
    random: &mut Random,
    case: &mut TableCase,
    flag: u32,
    kinds: &[u32],
) -> Option<usize> {
    let rows = case.rows_mut();
    let able: Vec<usize> = (0..rows.len())
        .filter(|&index| kinds.contains(&rows[index][0]))
        .collect();
    let last = able.len().checked_sub(1).filter(|&last| last > 0)?;
    let second = random.between(1, last);
    let first = random.below(second);
    for &index in &able {
        rows[index][11] &= !flag;
    }
    for index in [able[first], able[second]] {
        rows[index][11] |= flag;
    }
    Some(able[second])
}
