//! Random numbers that are faults where others are right.

use crate::random::Random;

/// A number above `limit`: the next one, a near one, or any.
pub fn above(random: &mut Random, limit: u32) -> u32 {
    let any = random.between(limit as usize + 1, u32::MAX as usize) as u32;
    let near = limit.saturating_add(random.between(1, 5) as u32);
    random.pick(&[limit + 1, near, any, u32::MAX])
}

/// A pointer of so many bytes above `limit`. One of eight bytes may be `right`
/// with another high word, one that has no low word, or one so high that the
/// bytes it leads to have no places.
pub fn pointer_above(random: &mut Random, limit: u32, right: u64, size: usize) -> u64 {
    let low = u64::from(above(random, limit));
    if size == 4 {
        return low;
    }
    let last = u64::MAX - random.below(17) as u64;
    let any = (random.between(1, u32::MAX as usize) as u64) << 32 | random.word() >> 32;
    random.pick(&[
        low,
        low,
        1 << 32 | right,
        1 << 32 | low,
        1 << 32,
        1 << 63 | right,
        last,
        any,
    ])
}

/// A number other than `old`: a neighbour, one that differs in a byte, or any.
pub fn other(random: &mut Random, old: u32) -> u32 {
    let any = old ^ random.between(1, u32::MAX as usize) as u32;
    let byte = old ^ (random.between(1, 255) as u32) << (8 * random.below(4));
    random.pick(&[old.wrapping_add(1), old.wrapping_sub(1), byte, any])
}

/// A side that no canvas and no layer may have.
pub fn bad_side(random: &mut Random) -> u32 {
    if random.one_in(3) {
        0
    } else {
        above(random, 16_384)
    }
}

/// A usable side other than `old`.
pub fn other_side(random: &mut Random, old: u32) -> u32 {
    let side = random.between(1, 16_383) as u32;
    let near = if old > 1 { old - 1 } else { 2 };
    random.pick(&[near, if side == old { 16_384 } else { side }])
}

/// A layer type of another base type, or none.
pub fn other_type(random: &mut Random, old: u32) -> u32 {
    let mut types: Vec<u32> = (0..=5).filter(|other| other / 2 != old / 2).collect();
    types.extend([6, 7, above(random, 5)]);
    random.pick(&types)
}
