//! Files written front to back, whose pointers are set once it is known where
//! they lead.

use super::DEPTHS;
use super::block::set_number;
use super::version::{PRECISION, has_precision, pointer_size, tag};

/// What an image's structure holds before its pointers.
pub struct ImageFields {
    pub version: u32,
    pub sides: [u32; 2],
    pub base: u32,
    /// The property list without its end.
    pub list: Vec<u8>,
}

/// What a drawable's structure holds before its pointers, and its tiles.
pub struct DrawableFields {
    pub sides: [u32; 2],
    pub name: Vec<u8>,
    /// The property list without its end.
    pub list: Vec<u8>,
    /// The tiles' bytes, laid out one after the other.
    pub tiles: Vec<Vec<u8>>,
}

pub struct Layer {
    /// The layer's type.
    pub kind: u32,
    pub fields: DrawableFields,
    pub mask: Option<DrawableFields>,
}

pub struct Writer {
    pub file: Vec<u8>,
    /// Bytes in a pointer.
    pointer_size: usize,
}

impl Writer {
    /// Starts a file with an image's structure; gives also the places of the
    /// pointers to layers and channels.
    pub fn new(fields: &ImageFields, layers: usize, channels: usize) -> (Self, Vec<usize>) {
        let mut writer = Writer {
            file: [&b"gimp xcf "[..], &tag(fields.version)].concat(),
            pointer_size: pointer_size(fields.version),
        };
        let pointers = writer.image(fields, layers, channels);
        (writer, pointers)
    }

    /// Appends the image's fields behind the version.
    fn image(&mut self, fields: &ImageFields, layers: usize, channels: usize) -> Vec<usize> {
        self.words(&fields.sides);
        self.words(&[fields.base]);
        if has_precision(fields.version) {
            self.words(&[PRECISION]);
        }
        self.list(&fields.list);
        let mut pointers: Vec<usize> = (0..layers).map(|_| self.pointer()).collect();
        self.pointer();
        pointers.extend((0..channels).map(|_| self.pointer()));
        self.pointer();
        pointers
    }

    fn words(&mut self, words: &[u32]) {
        let bytes = words.iter().flat_map(|word| word.to_be_bytes());
        self.file.extend(bytes);
    }

    /// Appends a string; an empty one has no closing zero.
    fn name(&mut self, name: &[u8]) {
        if name.is_empty() {
            self.words(&[0]);
        } else {
            self.words(&[name.len() as u32 + 1]);
            self.file.extend(name);
            self.file.push(0);
        }
    }

    fn list(&mut self, list: &[u8]) {
        self.file.extend(list);
        self.words(&[0, 0]);
    }

    /// Appends a pointer that leads nowhere yet, as those that end lists never
    /// do; gives its place.
    fn pointer(&mut self) -> usize {
        let place = self.file.len();
        self.file.resize(place + self.pointer_size, 0);
        place
    }

    /// Lets the pointer at `place` lead to what is appended next.
    pub fn lead_here(&mut self, place: usize) {
        let here = self.file.len() as u64;
        set_number(&mut self.file, place, self.pointer_size, here);
    }

    /// Appends a layer and all that belongs to it.
    pub fn layer(&mut self, layer: &Layer) {
        let Layer { kind, fields, mask } = layer;
        self.words(&fields.sides);
        self.words(&[*kind]);
        let hierarchy = self.shared_fields(fields);
        let mask_pointer = self.pointer();
        self.lead_here(hierarchy);
        self.hierarchy(DEPTHS[*kind as usize], fields);
        if let Some(mask) = mask {
            self.lead_here(mask_pointer);
            self.channel(mask);
        }
    }

    /// Appends a channel or mask and all that belongs to it.
    pub fn channel(&mut self, fields: &DrawableFields) {
        self.words(&fields.sides);
        let hierarchy = self.shared_fields(fields);
        self.lead_here(hierarchy);
        self.hierarchy(1, fields);
    }

    /// Appends the fields from the name on; gives the place of the hierarchy
    /// pointer.
    fn shared_fields(&mut self, fields: &DrawableFields) -> usize {
        self.name(&fields.name);
        self.list(&fields.list);
        self.pointer()
    }

    /// Appends a hierarchy, its level and the tiles.
    fn hierarchy(&mut self, depth: u32, fields: &DrawableFields) {
        self.words(&fields.sides);
        self.words(&[depth]);
        let level = self.pointer();
        self.pointer();
        self.lead_here(level);
        self.words(&fields.sides);
        let pointers: Vec<usize> = fields.tiles.iter().map(|_| self.pointer()).collect();
        self.pointer();
        for (pointer, tile) in pointers.into_iter().zip(&fields.tiles) {
            self.lead_here(pointer);
            self.file.extend(tile);
        }
    }
}

/// The file of an image, its layers and its channels, without gaps.
pub fn write_file(image: &ImageFields, layers: &[Layer], channels: &[DrawableFields]) -> Vec<u8> {
    let (mut writer, pointers) = Writer::new(image, layers.len(), channels.len());
    let (to_layers, to_channels) = pointers.split_at(layers.len());
    for (&pointer, layer) in to_layers.iter().zip(layers) {
        writer.lead_here(pointer);
        writer.layer(layer);
    }
    for (&pointer, channel) in to_channels.iter().zip(channels) {
        writer.lead_here(pointer);
        writer.channel(channel);
    }
    writer.file
}
