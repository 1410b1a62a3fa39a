//! Files of version 11, laid out by hand.

use super::{END, byte_property, lay, property, with_bytes, words};

/// Pointers as bytes, or the zeros that end them.
pub fn pointers(pointers: &[u64]) -> Vec<u8> {
    super::pointers(8, pointers.iter().copied())
}

/// The file with other pointers, each at its place.
pub fn with_pointers(file: &[u8], changes: &[(usize, u64)]) -> Vec<u8> {
    let bytes = |&(place, pointer): &(usize, u64)| (place, pointer.to_be_bytes());
    with_bytes(file, changes.iter().map(bytes))
}

/// A canvas of one pixel up to its property list, which starts at 30.
pub fn image_start(base: u32) -> Vec<u8> {
    lay(&[
        (0, b"gimp xcf v011\0"),
        (14, &words(&[1, 1])),
        (22, &words(&[base])),
        (26, &words(&[150])),
    ])
}

/// An image without drawables; its list of properties, which ends behind
/// `list`, starts at 30.
pub fn empty_image(base: u32, list: &[u8]) -> Vec<u8> {
    let start = image_start(base);
    [&start, list, &words(&END), &pointers(&[0, 0])].concat()
}

/// A grey image with its three pointers and the zeros that end them. A
/// hierarchy for one grey pixel lies at 62, its level at 90; what follows starts
/// at 114.
fn grey_image(leading: [u64; 3]) -> Vec<u8> {
    lay(&[
        (0, &image_start(1)),
        (30, &words(&END)),
        (38, &pointers(&leading)),
        (62, &words(&[1, 1, 1])),
        (74, &pointers(&[90, 0])),
        (90, &words(&[1, 1])),
        (98, &pointers(&[1, 0])),
    ])
}

/// A grey layer of one pixel at 114, with its list at 130 and no mask.
pub fn grey_layer(list: &[u8]) -> Vec<u8> {
    let start = lay(&[(0, &grey_image([114, 0, 0])), (114, &words(&[1, 1, 2, 0]))]);
    [&start, list, &words(&END), &pointers(&[62, 0])].concat()
}

/// The same layer with a mask behind it; both use the same hierarchy. With
/// two empty lists the mask is at 154, its list at 166.
pub fn masked_layer(list: &[u8], mask_list: &[u8]) -> Vec<u8> {
    let mask = 154 + list.len() as u64;
    let mut file = grey_layer(list);
    file.truncate(file.len() - 8);
    file.extend(pointers(&[mask]));
    file.extend(words(&[1, 1, 0]));
    file.extend_from_slice(mask_list);
    file.extend(words(&END));
    file.extend(pointers(&[62]));
    file
}

/// A channel of one pixel at 114, with its list at 126.
pub fn channel(list: &[u8]) -> Vec<u8> {
    let start = lay(&[(0, &grey_image([0, 114, 0])), (114, &words(&[1, 1, 0]))]);
    [&start, list, &words(&END), &pointers(&[62])].concat()
}

/// The rules' example of a whole file, as it is in version 11.
pub fn example() -> Vec<u8> {
    lay(&[
        (0, &image_start(1)),
        (30, &byte_property(17, &[1])),
        (39, &words(&END)),
        (47, &pointers(&[0])),
        (55, &pointers(&[71, 0])),
        // The channel.
        (71, &words(&[1, 1])),
        (79, &words(&[2])),
        (83, b"s\0"),
        (85, &property(6, &[255])),
        (97, &property(8, &[1])),
        (109, &words(&END)),
        (117, &pointers(&[125])),
        (125, &words(&[1, 1, 1])),
        (137, &pointers(&[153, 0])),
        (153, &words(&[1, 1])),
        (161, &pointers(&[177, 0])),
        (177, &[0xFF, 0xFF]),
    ])
}

/// An RGB image of 70 by 2 with a layer of 65 by 3, its mask, and a channel.
/// Each has a hierarchy, a level and two tiles of its own.
pub fn layered() -> Vec<u8> {
    lay(&[
        (0, b"gimp xcf v011\0"),
        (14, &words(&[70, 2, 0, 150])),
        (30, &byte_property(17, &[1])),
        (39, &words(&END)),
        (47, &pointers(&[79, 0])),
        (63, &pointers(&[278, 0])),
        // The layer, with alpha, named "ab".
        (79, &words(&[65, 3, 1])),
        (91, &words(&[3])),
        (95, b"ab\0"),
        (98, &words(&END)),
        (106, &pointers(&[122, 190])),
        (122, &words(&[65, 3, 4])),
        (134, &pointers(&[158, 7, 0])),
        (158, &words(&[65, 3])),
        (166, &pointers(&[367, 368, 0])),
        // The mask, without a name.
        (190, &words(&[65, 3])),
        (198, &words(&[0])),
        (202, &words(&END)),
        (210, &pointers(&[218])),
        (218, &words(&[65, 3, 1])),
        (230, &pointers(&[246, 0])),
        (246, &words(&[65, 3])),
        (254, &pointers(&[369, 370, 0])),
        // The channel, with a name of no bytes behind a length of 1.
        (278, &words(&[70, 2])),
        (286, &words(&[1])),
        (290, &[0]),
        (291, &words(&END)),
        (299, &pointers(&[307])),
        (307, &words(&[70, 2, 1])),
        (319, &pointers(&[335, 0])),
        (335, &words(&[70, 2])),
        (343, &pointers(&[371, 372, 0])),
        (367, &[1, 2, 3, 4, 5, 6]),
    ])
}

/// Pointers to so many layers and channels at the last place that there is;
/// nothing else lies behind them.
pub fn pointers_only(layers: usize, channels: usize) -> Vec<u8> {
    [
        image_start(1),
        words(&END),
        pointers(&vec![u64::MAX; layers]),
        pointers(&[0]),
        pointers(&vec![u64::MAX; channels]),
        pointers(&[0]),
    ]
    .concat()
}
