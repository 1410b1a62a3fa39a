//! The files that the library is measured on. Sides are multiples of 64, so
//! that every tile is a whole one.

use xcf_compare::files::laid::{byte_property, property, with_byte};
use xcf_compare::files::{DrawableFields, EXAMPLE, ImageFields, Layer, Writer, write_file};
use xcf_compare::random::Random;

/// Types in property lists.
const ACTIVE_LAYER: u32 = 2;
const OPACITY: u32 = 6;
const MODE: u32 = 7;
const VISIBLE: u32 = 8;
const LINKED: u32 = 9;
const LOCK_ALPHA: u32 = 10;
const APPLY_MASK: u32 = 11;
const EDIT_MASK: u32 = 12;
const SHOW_MASK: u32 = 13;
const SHOW_MASKED: u32 = 14;
const OFFSETS: u32 = 15;
const COLOUR: u32 = 16;
const COMPRESSION: u32 = 17;
const RESOLUTION: u32 = 19;
const TATTOO: u32 = 20;
/// Skipped by its length.
const LOCK_CONTENT: u32 = 28;

/// A stream of a white tile.
const WHITE: [u8; 4] = [0x7F, 0x10, 0x00, 0xFF];

/// The last byte of the example's last word of structure.
const CLOSING_BYTE: usize = 140;

/// The longest side there may be: 256 tiles.
const LONGEST: u32 = 16_384;

/// Rows of a large file, all of one layer.
pub const LARGE_ROWS: usize = 16;

/// Tile pointers read for a large file.
pub const LARGE_POINTERS: usize = LARGE_ROWS * 65_536;

/// A file of the version with one layer of as many tiles as there may be, to
/// which all the image's pointers lead.
pub fn large(random: &mut Random, version: u32) -> Vec<u8> {
    let sides = [LONGEST; 2];
    let image = ImageFields {
        version,
        ..image(sides, 0)
    };
    let (mut writer, pointers) = Writer::new(&image, LARGE_ROWS, 0);
    for pointer in pointers {
        writer.lead_here(pointer);
    }
    writer.layer(&Layer {
        kind: 0,
        fields: white("Layer 1", sides, 3, layer_list(random, 1, false)),
        mask: None,
    });
    writer.file
}

/// A file of as many rows as there may be, with small sides.
pub fn many(random: &mut Random) -> Vec<u8> {
    let layers: Vec<Layer> = (1..=48)
        .map(|number| masked_layer(random, number))
        .collect();
    let sides = [128, 128];
    let channels: Vec<DrawableFields> = (1..=32)
        .map(|number| white(&format!("Channel {number}"), sides, 1, channel_list(random)))
        .collect();
    write_file(&image(sides, 0), &layers, &channels)
}

/// The example, refused at its last word of structure.
pub fn refused() -> Vec<u8> {
    with_byte(&EXAMPLE, CLOSING_BYTE, 1)
}

/// A file of one small layer with this name.
pub fn named(name: Vec<u8>) -> Vec<u8> {
    let sides = [64, 64];
    let layer = Layer {
        kind: 0,
        fields: DrawableFields {
            name,
            ..white("", sides, 3, Vec::new())
        },
        mask: None,
    };
    write_file(&image(sides, 0), &[layer], &[])
}

/// A file of one layer, of depth 1 or 4, with the tiles.
pub fn one_layer(side: u32, depth: u32, tiles: Vec<Vec<u8>>) -> Vec<u8> {
    let sides = [side; 2];
    let (base, kind) = match depth {
        1 => (1, 2),
        _ => (0, 1),
    };
    let fields = DrawableFields {
        sides,
        name: b"Layer".to_vec(),
        list: Vec::new(),
        tiles,
    };
    let layer = Layer {
        kind,
        fields,
        mask: None,
    };
    write_file(&image(sides, base), &[layer], &[])
}

fn image(sides: [u32; 2], base: u32) -> ImageFields {
    let resolution = [0x42, 0x90, 0, 0, 0x42, 0x90, 0, 0];
    ImageFields {
        version: 0,
        sides,
        base,
        list: [
            byte_property(COMPRESSION, &[1]),
            byte_property(RESOLUTION, &resolution),
        ]
        .concat(),
    }
}

/// A drawable of white tiles.
fn white(name: &str, sides: [u32; 2], depth: usize, list: Vec<u8>) -> DrawableFields {
    let count = (sides[0] / 64) * (sides[1] / 64);
    DrawableFields {
        sides,
        name: name.into(),
        list,
        tiles: vec![WHITE.repeat(depth); count as usize],
    }
}

/// A layer of three bytes per pixel, with a mask.
fn masked_layer(random: &mut Random, number: u32) -> Layer {
    let sides = [random.pick(&[64, 128]), random.pick(&[64, 128])];
    let name = format!("Layer {number}");
    let list = layer_list(random, number, true);
    let mask_list = channel_list(random);
    Layer {
        kind: 0,
        fields: white(&name, sides, 3, list),
        mask: Some(white(&format!("{name} mask"), sides, 1, mask_list)),
    }
}

/// Properties that hold a number below the limit each.
fn numbers(random: &mut Random, kinds: &[(u32, usize)]) -> Vec<u8> {
    let number = |&(kind, limit): &(u32, usize)| property(kind, &[random.below(limit) as u32]);
    kinds.iter().flat_map(number).collect()
}

fn layer_list(random: &mut Random, number: u32, has_mask: bool) -> Vec<u8> {
    let mut list = Vec::new();
    if number == 1 {
        list.extend(property(ACTIVE_LAYER, &[]));
    }
    let switches = [(OPACITY, 256), (VISIBLE, 2), (LINKED, 2), (LOCK_ALPHA, 2)];
    list.extend(numbers(random, &switches));
    if has_mask {
        let switches = [(APPLY_MASK, 2), (EDIT_MASK, 2), (SHOW_MASK, 2)];
        list.extend(numbers(random, &switches));
    }
    list.extend(byte_property(OFFSETS, &random.bytes(8)));
    list.extend(numbers(random, &[(MODE, 22)]));
    if random.one_in(2) {
        list.extend(property(TATTOO, &[number]));
    }
    list
}

/// The list of a channel or mask.
fn channel_list(random: &mut Random) -> Vec<u8> {
    let kinds = [
        (OPACITY, 256),
        (VISIBLE, 2),
        (LINKED, 2),
        (LOCK_CONTENT, 2),
        (SHOW_MASKED, 2),
    ];
    let mut list = numbers(random, &kinds);
    list.extend(byte_property(COLOUR, &random.bytes(3)));
    if random.one_in(2) {
        list.extend(property(TATTOO, &[random.between(1, 1_000) as u32]));
    }
    list
}
