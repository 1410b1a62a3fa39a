//! The words and pointers of a file, and among these the tile pointers of a
//! level.

/// A word, high byte first.
pub fn word(bytes: &[u8; 4]) -> u32 {
    u32::from_be_bytes(*bytes)
}

/// A pointer of up to 8 bytes, high byte first.
pub fn pointer<const N: usize>(bytes: &[u8; N]) -> u64 {
    let mut all = [0; 8];
    all[8 - N..].copy_from_slice(bytes);
    u64::from_be_bytes(all)
}

/// Whether each number is above the one before, the first above 0, and the
/// last below the limit; then all are below it.
fn ascend<T: Copy + Default + Ord>(numbers: impl Iterator<Item = T>, limit: T) -> bool {
    let mut before = T::default();
    let mut all = true;
    for number in numbers {
        all &= before < number;
        before = number;
    }
    all && before < limit
}

/// Whether all tile pointers are good. Those of 4 bytes are compared fastest as
/// numbers of 32 bits; no file is as long as these could say.
fn are_good<const N: usize>(pointers: &[[u8; N]], file_length: usize) -> bool {
    let numbers = pointers.iter().map(pointer);
    match N {
        4 => ascend(numbers.map(|number| number as u32), file_length as u32),
        _ => ascend(numbers, file_length as u64),
    }
}

/// The number of the first bad tile pointer, if there is one: each is above the
/// one before, the first above 0, and below the file's length. To test all is
/// faster than to stop early, so it is looked for only where there is one.
pub fn first_bad<const N: usize>(pointers: &[[u8; N]], file_length: usize) -> Option<usize> {
    if are_good(pointers, file_length) {
        return None;
    }
    let mut before = 0;
    pointers.iter().position(|bytes| {
        let pointer = pointer(bytes);
        let is_good = before < pointer && pointer < file_length as u64;
        before = pointer;
        !is_good
    })
}
