//! Files laid out by hand. Pieces name the places that they start at.

pub mod version_11;

/// The end of a property list.
pub const END: [u32; 2] = [0, 0];

/// Words as bytes.
pub fn words(words: &[u32]) -> Vec<u8> {
    words.iter().flat_map(|word| word.to_be_bytes()).collect()
}

/// Pointers, or the zeros that end them, as bytes: so many for each.
pub fn pointers(size: usize, pointers: impl IntoIterator<Item = u64>) -> Vec<u8> {
    let bytes = |pointer: u64| pointer.to_be_bytes().into_iter().skip(8 - size);
    pointers.into_iter().flat_map(bytes).collect()
}

/// A property with a payload of words.
pub fn property(kind: u32, payload: &[u32]) -> Vec<u8> {
    [words(&[kind, 4 * payload.len() as u32]), words(payload)].concat()
}

/// A property with a payload of bytes.
pub fn byte_property(kind: u32, payload: &[u8]) -> Vec<u8> {
    [&words(&[kind, payload.len() as u32]), payload].concat()
}

/// Joins pieces, each of which must start at the place that it names.
pub fn lay(pieces: &[(usize, &[u8])]) -> Vec<u8> {
    let mut file = Vec::new();
    for (place, piece) in pieces {
        assert_eq!(file.len(), *place, "a piece is out of place");
        file.extend_from_slice(piece);
    }
    file
}

/// The file with other bytes, so many at each place.
fn with_bytes<const N: usize>(
    file: &[u8],
    changes: impl IntoIterator<Item = (usize, [u8; N])>,
) -> Vec<u8> {
    let mut file = file.to_vec();
    for (place, bytes) in changes {
        file[place..place + N].copy_from_slice(&bytes);
    }
    file
}

/// The file with other words, each at its place.
pub fn with(file: &[u8], changes: &[(usize, u32)]) -> Vec<u8> {
    let bytes = |&(place, word): &(usize, u32)| (place, word.to_be_bytes());
    with_bytes(file, changes.iter().map(bytes))
}

/// The file with another byte.
pub fn with_byte(file: &[u8], place: usize, byte: u8) -> Vec<u8> {
    with_bytes(file, [(place, [byte])])
}

/// A canvas of one pixel up to its property list, which starts at 26.
pub fn image_start(tag: &[u8; 5], base: u32) -> Vec<u8> {
    lay(&[
        (0, b"gimp xcf "),
        (9, tag),
        (14, &words(&[1, 1])),
        (22, &words(&[base])),
    ])
}

/// An image without drawables; its list of properties, which ends behind
/// `list`, starts at 26.
pub fn empty_image(tag: &[u8; 5], base: u32, list: &[u8]) -> Vec<u8> {
    let start = image_start(tag, base);
    [&start, list, &words(&END), &words(&[0, 0])].concat()
}

/// A grey image with three words for its pointers and the zeros that end
/// them. A hierarchy for one grey pixel lies at 46, its level at 66; what
/// follows starts at 82.
fn grey_image(pointers: [u32; 3]) -> Vec<u8> {
    lay(&[
        (0, &image_start(b"file\0", 1)),
        (26, &words(&END)),
        (34, &words(&pointers)),
        (46, &words(&[1, 1, 1, 66, 0])),
        (66, &words(&[1, 1, 1, 0])),
    ])
}

/// A grey layer of one pixel at 82, with its list at 98 and no mask.
pub fn grey_layer(list: &[u8]) -> Vec<u8> {
    let start = lay(&[(0, &grey_image([82, 0, 0])), (82, &words(&[1, 1, 2, 0]))]);
    [&start, list, &words(&END), &words(&[46, 0])].concat()
}

/// The same layer with a mask behind it; both use the same hierarchy. With
/// two empty lists the mask is at 114, its list at 126.
pub fn masked_layer(list: &[u8], mask_list: &[u8]) -> Vec<u8> {
    let mask = 114 + list.len() as u32;
    let mut file = grey_layer(list);
    file.truncate(file.len() - 4);
    file.extend(words(&[mask, 1, 1, 0]));
    file.extend_from_slice(mask_list);
    file.extend(words(&[0, 0, 46]));
    file
}

/// A channel of one pixel at 82, with its list at 94.
pub fn channel(list: &[u8]) -> Vec<u8> {
    let start = lay(&[(0, &grey_image([0, 82, 0])), (82, &words(&[1, 1, 0]))]);
    [&start, list, &words(&END), &words(&[46])].concat()
}

/// An RGB image of 70 by 2 with a layer of 65 by 3, its mask, and a channel.
/// Each has a hierarchy, a level and two tiles of its own.
pub fn layered() -> Vec<u8> {
    lay(&[
        (0, b"gimp xcf v003\0"),
        (14, &words(&[70, 2, 0])),
        (26, &byte_property(17, &[1])),
        (35, &words(&END)),
        (43, &words(&[59, 0])),
        (51, &words(&[202, 0])),
        // The layer, with alpha, named "ab".
        (59, &words(&[65, 3, 1])),
        (71, &words(&[3])),
        (75, b"ab\0"),
        (78, &words(&END)),
        (86, &words(&[94, 138])),
        (94, &words(&[65, 3, 4, 118, 7, 0])),
        (118, &words(&[65, 3, 267, 268, 0])),
        // The mask, without a name.
        (138, &words(&[65, 3])),
        (146, &words(&[0])),
        (150, &words(&END)),
        (158, &words(&[162])),
        (162, &words(&[65, 3, 1, 182, 0])),
        (182, &words(&[65, 3, 269, 270, 0])),
        // The channel, with a name of no bytes behind a length of 1.
        (202, &words(&[70, 2])),
        (210, &words(&[1])),
        (214, &[0]),
        (215, &words(&END)),
        (223, &words(&[227])),
        (227, &words(&[70, 2, 1, 247, 0])),
        (247, &words(&[70, 2, 271, 272, 0])),
        (267, &[1, 2, 3, 4, 5, 6]),
    ])
}

/// Pointers to so many layers and channels; nothing else lies behind them.
pub fn pointers_only(layers: usize, channels: usize) -> Vec<u8> {
    [
        image_start(b"file\0", 1),
        words(&END),
        words(&vec![4_000_000_000; layers]),
        words(&[0]),
        words(&vec![4_000_000_000; channels]),
        words(&[0]),
    ]
    .concat()
}
