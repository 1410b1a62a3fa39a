//! The structures of a file as blocks of bytes that know where their fields
//! lie and which blocks they point to; and blocks laid out as a file.

use super::version::pointer_size;
use crate::random::Random;

/// What a field is.
#[derive(Clone, Copy, Debug, PartialEq, Eq, PartialOrd, Ord)]
pub enum FieldKind {
    Magic,
    Version,
    CanvasSide,
    Base,
    Precision,
    LayerSide,
    LayerType,
    /// A side of a channel or mask, which must equal its owner's.
    OwnedSide,
    /// A string's length word; a `NameEnd` comes next unless it is 0.
    NameLength,
    /// The last byte of a string.
    NameEnd,
    /// The type word of a colour map in the image's list.
    MapType,
    MapLength,
    MapCount,
    /// The type word, in a layer's list, of a property as long as one of type 5
    /// may be.
    FloatingType,
    /// The type word of a property of eight bytes where one of type 5 may not
    /// have so many.
    LongType,
    /// Any other type word but a list's last.
    PropertyType,
    /// The type word 0 that ends a list.
    ListEnd,
    /// The length of a type that allows only one.
    FixedLength,
    /// The length of type 5, which may allow two.
    FloatingLength,
    /// The length of a type that is skipped by its length.
    FreeLength,
    Compression,
    Opacity,
    /// The content of a property that must be 0 or 1.
    Switch,
    /// The content of a property that is not tested.
    Content,
    LayerPointer,
    ChannelPointer,
    /// The 0 behind the image's layer or channel pointers.
    PointersEnd,
    /// The same where one more pointer would be too many.
    FullPointersEnd,
    HierarchyPointer,
    MaskPointer,
    /// The mask pointer 0.
    NoMask,
    HierarchySide,
    Depth,
    LevelPointer,
    /// A pointer behind the first level pointer.
    FurtherLevel,
    HierarchyEnd,
    LevelSide,
    FirstTile,
    NextTile,
    /// The 0 behind the tile pointers.
    ClosingZero,
}

/// A field and where it lies.
#[derive(Clone, Copy, Debug, PartialEq, Eq)]
pub struct Field {
    pub kind: FieldKind,
    pub place: usize,
    pub length: usize,
}

impl Field {
    /// The number that the field's bytes are.
    pub fn number(&self, bytes: &[u8]) -> u64 {
        number_at(bytes, self.place, self.length)
    }

    /// Writes a number over the field, as far as there are bytes.
    pub fn set(&self, bytes: &mut [u8], value: u64) {
        set_number(bytes, self.place, self.length, value);
    }
}

/// A pointer that takes the place, in the file, of a byte of another block.
struct Pointer {
    place: usize,
    block: usize,
    offset: usize,
}

/// A structure of a version, with places counted from its own start.
#[derive(Default)]
pub struct Block {
    pub version: u32,
    pub bytes: Vec<u8>,
    fields: Vec<Field>,
    pointers: Vec<Pointer>,
    /// The place and number of tile pointers that may lead anywhere.
    pub free_tiles: Option<(usize, usize)>,
}

impl Block {
    pub fn new(version: u32) -> Self {
        Block {
            version,
            ..Default::default()
        }
    }

    fn pointer_size(&self) -> usize {
        pointer_size(self.version)
    }

    pub fn push(&mut self, kind: FieldKind, bytes: &[u8]) {
        self.fields.push(Field {
            kind,
            place: self.bytes.len(),
            length: bytes.len(),
        });
        self.bytes.extend_from_slice(bytes);
    }

    pub fn word(&mut self, kind: FieldKind, value: u32) {
        self.push(kind, &value.to_be_bytes());
    }

    /// A pointer that has the value.
    pub fn pointer(&mut self, kind: FieldKind, value: u64) {
        let unused = 8 - self.pointer_size();
        self.push(kind, &value.to_be_bytes()[unused..]);
    }

    /// A pointer to the byte at `offset` in a block.
    pub fn pointer_to(&mut self, kind: FieldKind, block: usize, offset: usize) {
        self.pointers.push(Pointer {
            place: self.bytes.len(),
            block,
            offset,
        });
        self.pointer(kind, 0);
    }
}

/// A file, its fields, and where each block starts.
pub struct Layout {
    pub bytes: Vec<u8>,
    pub fields: Vec<Field>,
    pub starts: Vec<usize>,
}

impl Layout {
    /// Lays the blocks out, the first at 0 and the others perhaps shuffled,
    /// perhaps with gaps and a tail of random bytes.
    pub fn random(random: &mut Random, blocks: &[Block]) -> Layout {
        let mut layout = Layout {
            bytes: Vec::new(),
            fields: Vec::new(),
            starts: vec![0; blocks.len()],
        };
        let has_gaps = random.one_in(2);
        for block in random_order(random, blocks.len()) {
            layout.starts[block] = layout.bytes.len();
            layout.bytes.extend_from_slice(&blocks[block].bytes);
            if has_gaps && random.one_in(3) {
                let gap = random.between(1, 9);
                layout.bytes.extend(random.bytes(gap));
            }
        }
        for (index, block) in blocks.iter().enumerate() {
            layout.finish(random, index, block);
        }
        layout
    }

    /// Writes the pointers of a block that has its place, and takes over its
    /// fields.
    fn finish(&mut self, random: &mut Random, index: usize, block: &Block) {
        let (start, size) = (self.starts[index], block.pointer_size());
        for pointer in &block.pointers {
            let value = self.starts[pointer.block] + pointer.offset;
            set_number(&mut self.bytes, start + pointer.place, size, value as u64);
        }
        if let Some((place, count)) = block.free_tiles {
            for (i, value) in ascending(random, count, self.bytes.len()).enumerate() {
                let place = start + place + size * i;
                set_number(&mut self.bytes, place, size, value as u64);
            }
        }
        self.fields.extend(block.fields.iter().map(|field| Field {
            place: start + field.place,
            ..*field
        }));
    }
}

/// The numbers below `count`, 0 first and the others perhaps shuffled.
fn random_order(random: &mut Random, count: usize) -> Vec<usize> {
    let mut order: Vec<usize> = (0..count).collect();
    if random.one_in(2) {
        for i in 2..count {
            order.swap(i, random.between(1, i));
        }
    }
    order
}

/// So many numbers from 1 up to but without `limit`, each above the one
/// before; there must be room for them.
fn ascending(random: &mut Random, count: usize, limit: usize) -> impl Iterator<Item = usize> {
    let step = random.pick(&[0, 1, 9, limit]);
    let mut before = 0;
    (0..count).map(move |i| {
        let room = limit - (count - i) - (before + 1);
        before += 1 + random.below(step.min(room) + 1);
        before
    })
}

/// The word at `place`.
pub fn word_at(bytes: &[u8], place: usize) -> u32 {
    number_at(bytes, place, 4) as u32
}

/// Writes a word over the bytes at `place`, as far as there are any.
pub fn set_word(bytes: &mut [u8], place: usize, value: u32) {
    set_number(bytes, place, 4, value.into());
}

/// The number of so many bytes, at most eight, at `place`.
pub fn number_at(bytes: &[u8], place: usize, size: usize) -> u64 {
    let mut all = [0; 8];
    all[8 - size..].copy_from_slice(&bytes[place..place + size]);
    u64::from_be_bytes(all)
}

/// Writes the low bytes of a number, as many as are asked for, over those at
/// `place`, as far as there are any.
pub fn set_number(bytes: &mut [u8], place: usize, size: usize, value: u64) {
    let new = value.to_be_bytes().into_iter().skip(8 - size);
    for (byte, new) in bytes.iter_mut().skip(place).zip(new) {
        *byte = new;
    }
}
