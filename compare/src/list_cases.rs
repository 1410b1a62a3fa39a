//! Small files for the listing program, and the listings that the reference
//! expects of it.

use crate::answer::{LIST_LIMIT, TABLE_LENGTH, WINDOW_LIMIT};
use crate::cases::Shape;
use crate::files::drawable::{tile_count, tile_shape};
use crate::files::laid::{
    byte_property, empty_image, grey_layer, layered, pointers_only, property, version_11, with,
    with_byte, words,
};
use crate::files::{DEPTHS, DrawableFields, EXAMPLE, ImageFields, Layer, Writer, write_file};
use crate::list::list;
use crate::read::read;
use crate::tile;

/// Types in property lists.
const COLOUR_MAP: u32 = 1;
const ACTIVE_LAYER: u32 = 2;
const ACTIVE_CHANNEL: u32 = 3;
const SELECTION: u32 = 4;
const FLOATING: u32 = 5;
const OPACITY: u32 = 6;
const MODE: u32 = 7;
const VISIBLE: u32 = 8;
const APPLY_MASK: u32 = 11;
const OFFSETS: u32 = 15;
const COLOUR: u32 = 16;
const COMPRESSION: u32 = 17;
const GROUP: u32 = 29;
const PATH: u32 = 30;

/// A file and its name.
pub struct ListCase {
    pub name: String,
    pub file: Vec<u8>,
}

impl ListCase {
    fn new(name: &str, file: Vec<u8>) -> Self {
        ListCase {
            name: format!("{name}.xcf"),
            file,
        }
    }
}

/// All files, by name.
pub fn build() -> Vec<ListCase> {
    let mut cases = accepted();
    cases.extend(refused());
    cases.sort_by(|one, other| one.name.cmp(&other.name));
    cases
}

/// Each file's name in a line.
pub fn arguments(cases: &[ListCase]) -> String {
    let line = |case: &ListCase| format!("{}\n", case.name);
    cases.iter().map(line).collect()
}

/// Each file's name, and behind it the file's listing.
pub fn expected(cases: &[ListCase]) -> String {
    let listing = |case: &ListCase| format!("{}\n{}", case.name, list(&case.file));
    cases.iter().map(listing).collect()
}

fn refused() -> Vec<ListCase> {
    let map = property(COLOUR_MAP, &[0]);
    let mut cases = vec![
        ListCase::new("refused_empty", Vec::new()),
        ListCase::new("refused_far_pointer", pointers_only(1, 0)),
        ListCase::new("refused_last_place", version_11::pointers_only(1, 0)),
    ];
    for (number, file) in [
        (1, EXAMPLE[..100].to_vec()),
        (2, with_byte(&EXAMPLE, 0, b'G')),
        (3, empty_image(b"v004\0", 1, &[])),
        (4, with(&EXAMPLE, &[(14, 16_385)])),
        (5, empty_image(b"file\0", 2, &map)),
        (6, with(&EXAMPLE, &[(73, 3)])),
        (7, with(&EXAMPLE, &[(77, 256)])),
        (8, pointers_only(49, 0)),
        (9, with(&layered(), &[(106, 0)])),
        (10, with(&layered(), &[(67, 2)])),
        (12, with_byte(&layered(), 77, 1)),
        (13, with(&layered(), &[(130, 267)])),
        (15, padded_example(LIST_LIMIT + 1)),
        (16, grey_layer(&property(FLOATING, &[0]))),
        (25, with(&version_11::example(), &[(26, 100)])),
    ] {
        cases.push(ListCase::new(&format!("refused_{number:02}"), file));
    }
    cases
}

/// The example in front of so many zero bytes that the file has the length.
fn padded_example(length: usize) -> Vec<u8> {
    let mut file = EXAMPLE.to_vec();
    file.resize(length, 0);
    file
}

fn accepted() -> Vec<ListCase> {
    let mut cases = vec![
        ListCase::new("accepted_example", EXAMPLE.to_vec()),
        ListCase::new("accepted_full_table", repeated(48, 32)),
        ListCase::new("accepted_latin_1", with_byte(&EXAMPLE, 67, 0xE9)),
        ListCase::new("accepted_longest", padded_example(LIST_LIMIT)),
        ListCase::new("accepted_marked_20", marked_20()),
        ListCase::new("accepted_marked_21", marked_21()),
        ListCase::new("accepted_masks", masks()),
        ListCase::new("accepted_no_rows", empty_image(b"v003\0", 0, &[])),
        ListCase::new("accepted_old_map", old_map()),
        ListCase::new("accepted_overlapping", overlapping()),
        ListCase::new("accepted_same_pointers", repeated(3, 2)),
        ListCase::new("accepted_selection", selection()),
        ListCase::new("accepted_several_rows", several_rows()),
        ListCase::new("accepted_several_tiles", several_tiles()),
        ListCase::new("accepted_skipped", skipped()),
        ListCase::new("accepted_tiles_plain", plain_tiles()),
        ListCase::new("accepted_v11_encoded", versioned(11, 1)),
        ListCase::new("accepted_window_limit", window_limit()),
    ];
    for version in 0..4 {
        for (compression, how) in [(0, "plain"), (1, "encoded")] {
            let name = format!("accepted_v{version}_{how}");
            cases.push(ListCase::new(&name, versioned(version, compression)));
        }
    }
    cases
}

/// An image of the sides and the base type, in version 3.
fn image(sides: [u32; 2], base: u32, compression: u8) -> ImageFields {
    ImageFields {
        version: 3,
        sides,
        base,
        list: byte_property(COMPRESSION, &[compression]),
    }
}

/// A drawable whose tiles are each of one value.
fn drawable(
    name: &str,
    sides: [u32; 2],
    depth: u32,
    compression: u8,
    list: Vec<u8>,
) -> DrawableFields {
    let shape = Shape::new(sides[0], sides[1], depth);
    let tile = |index| {
        let pixels = vec![index as u8 + 9; tile_shape(shape, index).pixels_length()];
        match compression {
            0 => pixels,
            _ => tile::encode_pixels(&pixels, depth as usize),
        }
    };
    DrawableFields {
        sides,
        name: name.into(),
        list,
        tiles: (0..tile_count(shape)).map(tile).collect(),
    }
}

/// An encoded channel or mask.
fn channel(name: &str, sides: [u32; 2], list: Vec<u8>) -> DrawableFields {
    drawable(name, sides, 1, 1, list)
}

/// An encoded layer without a mask.
fn layer(name: &str, sides: [u32; 2], kind: u32, list: Vec<u8>) -> Layer {
    Layer {
        kind,
        fields: drawable(name, sides, DEPTHS[kind as usize], 1, list),
        mask: None,
    }
}

/// Versions 0 to 3 and 11: an RGB image; an indexed one; a grey one with a mode
/// of its version; an RGB one with a group; an indexed one whose channel has a
/// long property. Encoded layers have alpha and a mask.
fn versioned(version: u32, compression: u8) -> Vec<u8> {
    let base = match version {
        0 | 3 => 0,
        2 => 1,
        _ => 2,
    };
    let kind = 2 * base + u32::from(compression);
    let sides = [20, 7];
    let mut fields = image(sides, base, compression);
    fields.version = version;
    if base == 2 {
        let map = [&[0, 0, 0, 3], &[0x55; 9][..]].concat();
        fields.list.extend(byte_property(COLOUR_MAP, &map));
    }
    let coloured = |name, list| Layer {
        kind,
        fields: drawable(name, sides, DEPTHS[kind as usize], compression, list),
        mask: (compression == 1).then(|| drawable("mask", sides, 1, 1, Vec::new())),
    };
    let mode = if version == 2 { 21 } else { 3 };
    let mut layers = vec![coloured("Background", property(MODE, &[mode]))];
    if version == 3 {
        let group = [property(GROUP, &[]), property(PATH, &[0])].concat();
        layers.insert(0, coloured("Group", group));
        layers[1].fields.list.extend(property(PATH, &[0, 1]));
    }
    let mut pen = drawable("Pen", sides, 1, compression, property(VISIBLE, &[1]));
    if version == 11 {
        pen.list.extend(property(FLOATING, &[1, 0]));
    }
    write_file(&fields, &layers, &[pen])
}

/// All pointers to layers lead to one layer, those to channels to one channel.
fn repeated(layers: usize, channels: usize) -> Vec<u8> {
    let (mut writer, pointers) = Writer::new(&image([2, 2], 1, 1), layers, channels);
    for &pointer in &pointers[..layers] {
        writer.lead_here(pointer);
    }
    writer.layer(&Layer {
        mask: Some(channel("mask", [2, 3], Vec::new())),
        ..layer("layer", [2, 3], 2, property(OFFSETS, &[1, u32::MAX]))
    });
    for &pointer in &pointers[layers..] {
        writer.lead_here(pointer);
    }
    writer.channel(&channel("channel", [2, 2], Vec::new()));
    writer.file
}

/// A channel of three tiles with other bytes, the last tile of two pixels.
fn three_tiles(tiles: [&[u8]; 3]) -> Vec<u8> {
    let sides = [130, 1];
    let mut fields = channel("tiles", sides, Vec::new());
    fields.tiles = tiles.map(<[u8]>::to_vec).to_vec();
    write_file(&image(sides, 1, 1), &[], &[fields])
}

/// The second and the third window end too soon.
fn marked_20() -> Vec<u8> {
    three_tiles([&[0x3F, 7], &[0x3F], &[0xFE, 1]])
}

/// The first and the second tile have a run that is too long.
fn marked_21() -> Vec<u8> {
    three_tiles([&[0x40, 7], &[0x7F, 0, 65, 7], &[1, 7]])
}

/// Masks that are not applied, that are, and by default; with their own lists.
fn masks() -> Vec<u8> {
    let sides = [5, 3];
    let lists = [
        (property(APPLY_MASK, &[0]), property(SELECTION, &[])),
        (property(APPLY_MASK, &[1]), property(ACTIVE_CHANNEL, &[])),
        (property(OFFSETS, &[7, 8]), property(OPACITY, &[9])),
    ];
    let layers = lists.map(|(list, mask)| Layer {
        mask: Some(channel("mask", sides, mask)),
        ..layer("", sides, 1, list)
    });
    write_file(&image([4, 4], 0, 1), &layers, &[])
}

/// Tiles that lie in structures and start at the same places.
fn overlapping() -> Vec<u8> {
    with(&layered(), &[(126, 1), (130, 272), (190, 1), (194, 2)])
}

/// A selection, the active channel, and one with other properties.
fn selection() -> Vec<u8> {
    let sides = [9, 9];
    let selected = [property(SELECTION, &[]), property(VISIBLE, &[1])].concat();
    let coloured = [byte_property(COLOUR, &[1, 2, 3]), property(OPACITY, &[0])].concat();
    let channels = [
        channel("Selection Mask", sides, selected),
        channel("active", sides, property(ACTIVE_CHANNEL, &[])),
        channel("", sides, coloured),
    ];
    write_file(&image(sides, 0, 1), &[], &channels)
}

/// Layers with and without masks, some of them hidden or moved, and channels.
fn several_rows() -> Vec<u8> {
    let sides = [8, 6];
    let mut layers = vec![
        layer("top", sides, 1, property(ACTIVE_LAYER, &[])),
        layer("hidden", sides, 0, property(VISIBLE, &[0])),
        layer("moved", [3, 9], 1, property(OFFSETS, &[u32::MAX - 4, 2])),
        layer("faint", sides, 0, property(OPACITY, &[1])),
    ];
    for masked in [0, 2] {
        let sides = layers[masked].fields.sides;
        layers[masked].mask = Some(channel("mask", sides, Vec::new()));
    }
    let channels = ["one", "two"].map(|name| channel(name, sides, property(VISIBLE, &[1])));
    write_file(&image(sides, 0, 1), &layers, &channels)
}

/// Six tiles, of which the second is cut short and the fifth runs over.
fn several_tiles() -> Vec<u8> {
    let sides = [130, 70];
    let mut damaged = layer("damaged", sides, 3, Vec::new());
    damaged.fields.tiles[1].pop();
    damaged.fields.tiles[4][2] = 0xFF;
    let whole = channel("whole", sides, Vec::new());
    write_file(&image(sides, 1, 1), &[damaged], &[whole])
}

/// An indexed image whose colour map of two has the length word of old releases.
fn old_map() -> Vec<u8> {
    let mut fields = image([3, 2], 2, 1);
    fields.version = 1;
    fields.list.extend(words(&[COLOUR_MAP, 2 + 4, 2]));
    fields.list.extend([0x55; 2 * 3]);
    write_file(&fields, &[layer("chart", [3, 2], 5, Vec::new())], &[])
}

/// Properties that are skipped by their lengths.
fn skipped() -> Vec<u8> {
    let mut fields = image([1, 1], 1, 1);
    fields.list.extend(byte_property(21, b"a parasite"));
    fields.list.extend(byte_property(256 + COMPRESSION, &[9]));
    let list = [
        byte_property(COLOUR_MAP, b"no map"),
        property(40, &[]),
        byte_property(u32::MAX, &[0; 5]),
        property(OPACITY, &[7]),
    ];
    write_file(&fields, &[layer("", [1, 1], 2, list.concat())], &[])
}

/// Plain tiles side by side, and one below the other with the last cut short.
fn plain_tiles() -> Vec<u8> {
    let mut below = drawable("below", [3, 130], 1, 0, Vec::new());
    below.tiles[2].pop();
    let layers = [drawable("beside", [130, 3], 1, 0, Vec::new()), below].map(|fields| Layer {
        kind: 2,
        fields,
        mask: None,
    });
    write_file(&image([130, 130], 1, 0), &layers, &[])
}

/// A tile as long as a window may be, and one that is longer: it starts an
/// operation earlier.
fn window_limit() -> Vec<u8> {
    let zero_counts = [&[0x7F, 0, 0, 0x55], &[0x80, 0, 0].repeat(8_190)[..]].concat();
    let window = [&zero_counts[..], &[0xFF, 7]].concat();
    assert_eq!(window.len(), WINDOW_LIMIT);
    let mut longer = channel("longer", [1, 1], Vec::new());
    longer.tiles = vec![[&[0x80, 0, 0], &window[..]].concat()];
    let whole = channel("whole", [1, 1], Vec::new());
    let file = write_file(&image([1, 1], 1, 1), &[], &[whole, longer]);
    let mut table = vec![0; TABLE_LENGTH];
    read(&file, &mut table);
    let start = file.len() - window.len();
    with(&file, &[(table[8] as usize, start as u32)])
}
