//! The versions that files are made in, and how they differ. Not shared with the
//! reference: a mistake there must not be one in the files that test it.

/// The versions that are read.
pub const VERSIONS: [u32; 5] = [0, 1, 2, 3, 11];

/// The precision of the images that are read, in the versions that have one.
pub const PRECISION: u32 = 150;

/// The bytes that stand for a version, also for one that is not read.
pub fn tag(version: u32) -> [u8; 5] {
    let digits = [100, 10, 1].map(|unit| b'0' + (version / unit % 10) as u8);
    match (version, digits) {
        (0, _) => *b"file\0",
        (_, [a, b, c]) => [b'v', a, b, c, 0],
    }
}

/// The version that is read for the bytes, if there is one.
pub fn of_tag(bytes: &[u8]) -> Option<u32> {
    VERSIONS.into_iter().find(|&version| tag(version) == bytes)
}

/// Whether a precision stands behind the base type.
pub fn has_precision(version: u32) -> bool {
    version > 3
}

/// Bytes in a pointer.
pub fn pointer_size(version: u32) -> usize {
    match version {
        11 => 8,
        _ => 4,
    }
}

/// The payload lengths of type 5.
pub fn floating_lengths(version: u32) -> &'static [u32] {
    match version {
        11 => &[4, 8],
        _ => &[4],
    }
}
