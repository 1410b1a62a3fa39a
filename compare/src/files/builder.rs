//! Random files that a reader accepts, with the answer and the rows that are
//! known from how each was made.

use super::block::{Block, Field, FieldKind, Layout};
use super::drawable::{Drawable, tile_count, tile_shape};
use super::property::{Owner, Property, last, push_list, random_list};
use super::version::{PRECISION, VERSIONS, has_precision, pointer_size, tag};
use super::{DEPTHS, Known};
use crate::answer::ReadAnswer;
use crate::cases::Shape;
use crate::cases::drawable::random_window;
use crate::names::random_name;
use crate::random::Random;

// These are not shared with the reference: a mistake there must not be one in
// the files that test it.
const MAGIC: &[u8] = b"gimp xcf ";
const MOST_LAYERS: usize = 48;
const MOST_CHANNELS: usize = 32;

/// A file, where its fields lie, and what a reader gives for it.
pub struct BuiltFile {
    pub bytes: Vec<u8>,
    pub fields: Vec<Field>,
    pub known: Known,
}

/// What the tiles of a file hold.
#[derive(Clone, Copy, PartialEq, Eq)]
enum Content {
    /// A few bytes each.
    Short,
    /// What decodes to the tile, or nearly does.
    Windows,
}

/// A hierarchy that drawables of the same shape may share.
struct Hierarchy {
    shape: Shape,
    block: usize,
    level: usize,
}

/// A file while it is put together.
struct Builder {
    content: Content,
    /// The image comes first.
    blocks: Vec<Block>,
    drawables: Vec<Drawable>,
    hierarchies: Vec<Hierarchy>,
    width: u32,
    height: u32,
    base: u32,
    version: u32,
    properties: Vec<Property>,
    /// The drawables that the image's pointers lead to.
    layers: Vec<usize>,
    channels: Vec<usize>,
}

/// A file whose tiles are too short to decode, but for the smallest.
pub fn random_file(random: &mut Random) -> BuiltFile {
    build(random, Content::Short)
}

/// A file many of whose tiles decode, mostly run-length encoded.
pub fn decodable_file(random: &mut Random) -> BuiltFile {
    build(random, Content::Windows)
}

fn build(random: &mut Random, content: Content) -> BuiltFile {
    let mut builder = Builder::new(random, content);
    for _ in 0..random.pick(&[0, 1, 1, 2, 3]) {
        let layer = builder.add_layer(random);
        builder.layers.push(layer);
    }
    for _ in 0..random.pick(&[0, 0, 1, 1, 2]) {
        let channel = builder.add_channel(random, builder.width, builder.height);
        builder.channels.push(channel);
    }
    builder.repeat_pointers(random);
    builder.write_image();
    let layout = Layout::random(random, &builder.blocks);
    let known = builder.known(&layout);
    BuiltFile {
        bytes: layout.bytes,
        fields: layout.fields,
        known,
    }
}

/// Sides that often take several tiles, and seldom the largest.
pub fn random_sides(random: &mut Random) -> (u32, u32) {
    let mut side = || match random.below(8) {
        0..=2 => random.between(1, 8),
        3 | 4 => random.between(1, 70),
        5 => random.pick(&[63, 64, 65, 127, 128, 129]),
        6 => random.between(65, 150),
        _ => random.between(1, 400),
    };
    let (width, height) = (side() as u32, side() as u32);
    match random.below(300) {
        0 => (16_384, width.min(64)),
        1 => (height.min(64), 16_384),
        _ => (width, height),
    }
}

impl Builder {
    fn new(random: &mut Random, content: Content) -> Self {
        let (width, height) = random_sides(random);
        // A third has long pointers.
        let short = random.pick(&VERSIONS[..4]);
        let version = random.pick(&[short, short, 11]);
        let base = random.below(if version == 0 { 2 } else { 3 }) as u32;
        let mut properties = random_list(random, Owner::Image, version);
        if base == 2 {
            let place = random.below(properties.len() + 1);
            properties.insert(place, Property::colour_map(random));
        }
        if content == Content::Windows && !random.one_in(4) {
            let place = random.below(properties.len() + 1);
            properties.insert(place, Property::encoded());
        }
        Builder {
            content,
            blocks: vec![Block::new(version)],
            drawables: Vec::new(),
            hierarchies: Vec::new(),
            width,
            height,
            base,
            version,
            properties,
            layers: Vec::new(),
            channels: Vec::new(),
        }
    }

    fn add_block(&mut self, block: Block) -> usize {
        self.blocks.push(block);
        self.blocks.len() - 1
    }

    fn add_layer(&mut self, random: &mut Random) -> usize {
        let (width, height) = if random.one_in(2) {
            (self.width, self.height)
        } else {
            random_sides(random)
        };
        let mask = random
            .one_in(2)
            .then(|| self.add_channel(random, width, height));
        let layer_type = self.base * 2 + random.below(2) as u32;
        let mut block = Block::new(self.version);
        block.word(FieldKind::LayerSide, width);
        block.word(FieldKind::LayerSide, height);
        block.word(FieldKind::LayerType, layer_type);
        let shape = Shape::new(width, height, DEPTHS[layer_type as usize]);
        let layer = self.finish_drawable(random, block, shape, Owner::Layer);
        let block = &mut self.blocks[self.drawables[layer].block];
        match mask {
            Some(mask) => block.pointer_to(FieldKind::MaskPointer, self.drawables[mask].block, 0),
            None => block.pointer(FieldKind::NoMask, 0),
        }
        self.drawables[layer].layer_type = layer_type;
        self.drawables[layer].mask = mask;
        layer
    }

    /// Adds a channel or mask; one that has the sides may serve once more.
    fn add_channel(&mut self, random: &mut Random, width: u32, height: u32) -> usize {
        let shape = Shape::new(width, height, 1);
        let same = |other: &Drawable| other.owner == Owner::Channel && other.shape == shape;
        if let Some(shared) = self.drawables.iter().position(same)
            && random.one_in(4)
        {
            return shared;
        }
        let mut block = Block::new(self.version);
        block.word(FieldKind::OwnedSide, width);
        block.word(FieldKind::OwnedSide, height);
        self.finish_drawable(random, block, shape, Owner::Channel)
    }

    /// Adds a drawable whose block has the fields before the name; the block
    /// gets those up to the hierarchy pointer.
    fn finish_drawable(
        &mut self,
        random: &mut Random,
        mut block: Block,
        shape: Shape,
        owner: Owner,
    ) -> usize {
        let name_offset = block.bytes.len() + 4;
        let name = push_name(random, &mut block);
        let properties_offset = block.bytes.len();
        let properties = random_list(random, owner, self.version);
        push_list(&mut block, owner, &properties);
        let (hierarchy, level) = self.add_hierarchy(random, shape);
        block.pointer_to(FieldKind::HierarchyPointer, hierarchy, 0);
        let block = self.add_block(block);
        self.drawables.push(Drawable {
            owner,
            shape,
            layer_type: 2,
            block,
            name_offset,
            name,
            properties_offset,
            properties,
            level,
            mask: None,
        });
        self.drawables.len() - 1
    }

    /// Adds a hierarchy; one of the same shape may serve once more. Gives its
    /// block and its level's.
    fn add_hierarchy(&mut self, random: &mut Random, shape: Shape) -> (usize, usize) {
        let same = |other: &&Hierarchy| other.shape == shape;
        if let Some(shared) = self.hierarchies.iter().find(same)
            && random.one_in(4)
        {
            return (shared.block, shared.level);
        }
        let level = self.add_level(random, shape);
        let mut block = Block::new(self.version);
        block.word(FieldKind::HierarchySide, shape.width);
        block.word(FieldKind::HierarchySide, shape.height);
        block.word(FieldKind::Depth, shape.depth);
        block.pointer_to(FieldKind::LevelPointer, level, 0);
        for _ in 0..random.pick(&[0, 0, 1, 2, 5]) {
            block.pointer(
                FieldKind::FurtherLevel,
                random_further(random, self.version),
            );
        }
        block.pointer(FieldKind::HierarchyEnd, 0);
        let block = self.add_block(block);
        self.hierarchies.push(Hierarchy {
            shape,
            block,
            level,
        });
        (block, level)
    }

    /// Adds a level; one of the same sides may serve once more.
    fn add_level(&mut self, random: &mut Random, shape: Shape) -> usize {
        let sides = |shape: Shape| (shape.width, shape.height);
        let same = |other: &&Hierarchy| sides(other.shape) == sides(shape);
        if let Some(shared) = self.hierarchies.iter().find(same)
            && random.one_in(4)
        {
            return shared.level;
        }
        let mut block = Block::new(self.version);
        block.word(FieldKind::LevelSide, shape.width);
        block.word(FieldKind::LevelSide, shape.height);
        self.push_tile_pointers(random, &mut block, shape);
        block.pointer(FieldKind::ClosingZero, 0);
        self.add_block(block)
    }

    /// Appends tile pointers to a level. They lead into a new block of tiles,
    /// or anywhere.
    fn push_tile_pointers(&mut self, random: &mut Random, level: &mut Block, shape: Shape) {
        let count = tile_count(shape);
        let is_free = random.one_in(3);
        if is_free {
            level.free_tiles = Some((level.bytes.len(), count));
        }
        let mut tiles = Block::new(self.version);
        for i in 0..count {
            let kind = match i {
                0 => FieldKind::FirstTile,
                _ => FieldKind::NextTile,
            };
            if is_free {
                level.pointer(kind, 0);
            } else {
                level.pointer_to(kind, self.blocks.len(), tiles.bytes.len());
                let tile = self.tile(random, tile_shape(shape, i));
                tiles.bytes.extend(tile);
            }
        }
        if !is_free {
            self.add_block(tiles);
        }
    }

    /// The bytes of a tile, at least one.
    fn tile(&self, random: &mut Random, shape: Shape) -> Vec<u8> {
        match self.content {
            Content::Short => {
                let length = random.between(1, 5);
                random.bytes(length)
            }
            Content::Windows => random_window(random, shape, self.compression()),
        }
    }

    fn compression(&self) -> u32 {
        last(&self.properties, 17).map_or(0, Property::number)
    }

    /// Perhaps lets more of the image's pointers lead to the drawables, up to
    /// as many as there may be.
    fn repeat_pointers(&mut self, random: &mut Random) {
        let is_full = random.one_in(30);
        for (pointers, most) in [
            (&mut self.layers, MOST_LAYERS),
            (&mut self.channels, MOST_CHANNELS),
        ] {
            let wanted = match random.below(30) {
                _ if is_full => most,
                0 => most,
                1 => random.between(1, most),
                2..=5 => pointers.len() + 1,
                _ => 0,
            };
            while !pointers.is_empty() && pointers.len() < wanted {
                let again = random.pick(pointers);
                pointers.insert(random.below(pointers.len() + 1), again);
            }
        }
    }

    /// Writes the image's block.
    fn write_image(&mut self) {
        let mut block = Block::new(self.version);
        block.push(FieldKind::Magic, MAGIC);
        block.push(FieldKind::Version, &tag(self.version));
        block.word(FieldKind::CanvasSide, self.width);
        block.word(FieldKind::CanvasSide, self.height);
        block.word(FieldKind::Base, self.base);
        if has_precision(self.version) {
            block.word(FieldKind::Precision, PRECISION);
        }
        push_list(&mut block, Owner::Image, &self.properties);
        for (kind, pointers, most) in [
            (FieldKind::LayerPointer, &self.layers, MOST_LAYERS),
            (FieldKind::ChannelPointer, &self.channels, MOST_CHANNELS),
        ] {
            for &drawable in pointers {
                block.pointer_to(kind, self.drawables[drawable].block, 0);
            }
            let end = match pointers.len() == most {
                true => FieldKind::FullPointersEnd,
                false => FieldKind::PointersEnd,
            };
            block.pointer(end, 0);
        }
        self.blocks[0] = block;
    }

    /// What a reader gives for the file.
    fn known(&self, layout: &Layout) -> Known {
        let mut rows = Vec::new();
        for layer in self.layers.iter().map(|&layer| &self.drawables[layer]) {
            let owner = rows.len();
            let offsets = layer.offsets();
            rows.push(layer.row(1, layout, offsets, owner));
            if let Some(mask) = layer.mask {
                rows.push(self.drawables[mask].row(2, layout, offsets, owner));
            }
        }
        for &channel in &self.channels {
            rows.push(self.drawables[channel].row(3, layout, [0, 0], rows.len()));
        }
        let answer = ReadAnswer {
            number: 0,
            place: 0,
            width: self.width.into(),
            height: self.height.into(),
            base: self.base.into(),
            version: self.version.into(),
            compression: self.compression().into(),
            rows: rows.len() as u64,
            pointer_size: pointer_size(self.version) as u64,
        };
        Known { answer, rows }
    }
}

/// A pointer that is not 0, perhaps only in its high or in its low word.
fn random_further(random: &mut Random, version: u32) -> u64 {
    let any = random.word() | 1;
    let low = any & u64::from(u32::MAX);
    match pointer_size(version) {
        8 => random.pick(&[any, low, low << 32]),
        _ => low,
    }
}

/// Appends a string; gives the name.
fn push_name(random: &mut Random, block: &mut Block) -> Vec<u8> {
    let length = match random.below(4) {
        0 => 0,
        1 => 1,
        _ => random.between(2, 20),
    };
    block.word(FieldKind::NameLength, length as u32);
    if length == 0 {
        return Vec::new();
    }
    let name = random_name(random, length - 1);
    block.bytes.extend(&name);
    block.push(FieldKind::NameEnd, &[0]);
    name
}
