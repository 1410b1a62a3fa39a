//! Files made by hand, byte by byte.

use super::TILE;

/// The layer types 4 and 5.
pub const INDEXED: u32 = 4;
pub const INDEXED_ALPHA: u32 = 5;

/// The example of 143 bytes: 1 by 1, grey, a visible channel "s", one pixel FF.
pub fn example() -> Vec<u8> {
    let mut file = b"gimp xcf file\0".to_vec();
    file.extend(words(&[1, 1, 1, 17, 1]));
    file.push(1);
    file.extend(words(&[0, 0, 0, 55, 0, 1, 1, 2]));
    file.extend(b"s\0");
    file.extend(words(&[6, 4, 255, 8, 4, 1, 0, 0, 105]));
    file.extend(words(&[1, 1, 1, 125, 0, 1, 1, 141, 0]));
    file.extend([0xFF, 0xFF]);
    file
}

/// The listing of the example.
pub const EXAMPLE_LISTING: &str = "\
canvas 1 1 base 1 version 0 compression 1 rows 1
0 channel 1 1 1 2 67 1 69 133 1 255 1 0 0 0 0 bad 0
";

/// The example with a byte changed.
pub fn altered(place: usize, byte: u8) -> Vec<u8> {
    changed(example(), place, &[byte])
}

/// The example in version 11, of 179 bytes: its precision is at 26, and its
/// pointers have 8 bytes.
pub fn wide() -> Vec<u8> {
    let mut file = b"gimp xcf v011\0".to_vec();
    file.extend(words(&[1, 1, 1, 150, 17, 1]));
    file.push(1);
    file.extend(words(&[0, 0]));
    file.extend(pointers(&[0, 71, 0]));
    file.extend(words(&[1, 1, 2]));
    file.extend(b"s\0");
    file.extend(words(&[6, 4, 255, 8, 4, 1, 0, 0]));
    file.extend(pointers(&[125]));
    file.extend(words(&[1, 1, 1]));
    file.extend(pointers(&[153, 0]));
    file.extend(words(&[1, 1]));
    file.extend(pointers(&[177, 0]));
    file.extend([0xFF, 0xFF]);
    file
}

/// The listing of the example in version 11.
pub const WIDE_LISTING: &str = "\
canvas 1 1 base 1 version 11 compression 1 rows 1
0 channel 1 1 1 2 83 1 85 161 1 255 1 0 0 0 0 bad 0
";

/// The file with other bytes from a place on.
pub fn changed(mut file: Vec<u8>, place: usize, bytes: &[u8]) -> Vec<u8> {
    file[place..][..bytes.len()].copy_from_slice(bytes);
    file
}

/// The example's image with no rows.
pub fn empty() -> Vec<u8> {
    [&example()[..43], &words(&[0, 0])].concat()
}

/// The example's image with more pointers to layers than are allowed; the
/// 49th is at 235.
pub fn with_49_layers() -> Vec<u8> {
    [&example()[..43], &words(&[55; 49])].concat()
}

/// 2 by 1, indexed, of two colours, version 3, plain tiles: a layer "map" that
/// is a group, at -1,-2. Its pixels are 0 and 1, with alpha 255 and 0.
pub fn indexed(layer_type: u32) -> Vec<u8> {
    let (depth, pixels): (u32, &[u8]) = match layer_type {
        INDEXED => (1, &[0, 1]),
        _ => (2, &[0, 255, 1, 0]),
    };
    let mut file = b"gimp xcf v003\0".to_vec();
    file.extend(words(&[2, 1, 2, 1, 10, 2]));
    file.extend([0, 0, 0, 255, 255, 255]);
    file.extend(words(&[17, 1]));
    file.push(0);
    file.extend(words(&[0, 0, 73, 0, 0]));
    file.extend(words(&[2, 1, layer_type, 4]));
    file.extend(b"map\0");
    let (x, y) = (-1_i32 as u32, -2_i32 as u32);
    file.extend(words(&[29, 0, 15, 8, x, y, 0, 0, 133, 0]));
    file.extend(words(&[2, 1, depth, 153, 0]));
    file.extend(words(&[2, 1, 169, 0]));
    file.extend(pixels);
    file
}

/// White RGB layers of 16,384 by 16,384 that share their tiles: a small file
/// that takes long to decode.
pub fn laborious(layers: usize) -> Vec<u8> {
    const SIDE: u32 = 16_384;
    let tiles = (SIDE as usize / TILE).pow(2) as u32;
    let tile = [0x7F, 0x10, 0x00, 0xFF].repeat(3);
    let layer = 51 + 4 * layers as u32;
    let (hierarchy, level) = (layer + 32, layer + 52);
    let first = level + 12 + 4 * tiles;
    let mut file = b"gimp xcf file\0".to_vec();
    file.extend(words(&[SIDE, SIDE, 0, 17, 1]));
    file.push(1);
    file.extend(words(&[0, 0]));
    file.extend(words(&vec![layer; layers]));
    file.extend(words(&[0, 0]));
    file.extend(words(&[SIDE, SIDE, 0, 0, 0, 0, hierarchy, 0]));
    file.extend(words(&[SIDE, SIDE, 3, level, 0, SIDE, SIDE]));
    let pointers: Vec<u32> = (0..tiles)
        .map(|at| first + at * tile.len() as u32)
        .collect();
    file.extend(words(&pointers));
    file.extend(words(&[0]));
    file.extend(tile.repeat(tiles as usize));
    file
}

/// Words of 32 bits, high byte first.
pub fn words(words: &[u32]) -> Vec<u8> {
    words.iter().flat_map(|word| word.to_be_bytes()).collect()
}

/// Pointers of version 11: numbers of 64 bits, high byte first.
pub fn pointers(pointers: &[u64]) -> Vec<u8> {
    let bytes = pointers.iter().flat_map(|pointer| pointer.to_be_bytes());
    bytes.collect()
}

/// Overwrites a word.
pub fn put_word(file: &mut [u8], place: usize, word: u32) {
    file[place..][..4].copy_from_slice(&word.to_be_bytes());
}
