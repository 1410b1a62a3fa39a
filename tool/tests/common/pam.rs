//! PAM files.

use super::TILE;

/// The tuple types of 1 to 5 bands.
const TUPLE_TYPES: [&str; 5] = [
    "GRAYSCALE",
    "GRAYSCALE_ALPHA",
    "RGB",
    "RGB_ALPHA",
    "CMYK_ALPHA",
];

/// An image whose bands are named, as in `red green blue`.
#[derive(Clone, Debug, PartialEq, Eq)]
pub struct Pam {
    pub width: usize,
    pub height: usize,
    pub bands: String,
    pub pixels: Vec<u8>,
}

impl Pam {
    pub fn new(width: usize, height: usize, bands: &str, pixels: Vec<u8>) -> Self {
        let bands = bands.to_string();
        Pam {
            width,
            height,
            bands,
            pixels,
        }
    }

    /// Every byte the same.
    pub fn flat(width: usize, height: usize, bands: &str, value: u8) -> Self {
        let pixels = vec![value; width * height * count(bands)];
        Pam::new(width, height, bands, pixels)
    }

    /// Bytes without a pattern, the same in every run.
    pub fn noise(width: usize, height: usize, bands: &str) -> Self {
        let mut state = 0x2545_F491_u32 ^ (width << 16 ^ height) as u32;
        let byte = |_| {
            state ^= state << 13;
            state ^= state >> 17;
            state ^= state << 5;
            (state >> 11) as u8
        };
        let pixels = (0..width * height * count(bands)).map(byte).collect();
        Pam::new(width, height, bands, pixels)
    }

    pub fn depth(&self) -> usize {
        count(&self.bands)
    }

    /// The header as `xcf extract` writes it.
    pub fn header(&self) -> String {
        let Pam {
            width,
            height,
            bands,
            ..
        } = self;
        let depth = self.depth();
        let tuple_type = TUPLE_TYPES[depth - 1];
        format!(
            "P7\n# bands: {bands}\nWIDTH {width}\nHEIGHT {height}\nDEPTH {depth}\n\
             MAXVAL 255\nTUPLTYPE {tuple_type}\nENDHDR\n"
        )
    }

    /// The file as `xcf extract` writes it.
    pub fn bytes(&self) -> Vec<u8> {
        [self.header().as_bytes(), &self.pixels].concat()
    }

    /// The file with no comment that names the bands.
    pub fn unnamed_bytes(&self) -> Vec<u8> {
        let comment = format!("# bands: {}\n", self.bands);
        let header = self.header().replace(&comment, "");
        [header.as_bytes(), &self.pixels].concat()
    }

    /// What a row with these pixels gives where some of its tiles are marked:
    /// their pixels are zero, and a band of marks is behind the others.
    pub fn with_marks(&self, marked: &[usize]) -> Self {
        let bands = format!("{} mark", self.bands);
        let pixels = self.pixels.chunks(self.depth()).enumerate();
        let pixels =
            pixels.flat_map(
                |(place, pixel)| match marked.contains(&self.tile_of(place)) {
                    true => vec![0; pixel.len() + 1],
                    false => [pixel, &[255]].concat(),
                },
            );
        Pam::new(self.width, self.height, &bands, pixels.collect())
    }

    /// The pixels without the band of marks.
    pub fn without_marks(&self) -> Self {
        let bands = self.bands.strip_suffix(" mark").expect("a band of marks");
        let pixels = self.pixels.chunks(self.depth());
        let pixels = pixels.flat_map(|pixel| pixel[..pixel.len() - 1].to_vec());
        Pam::new(self.width, self.height, bands, pixels.collect())
    }

    /// The tile that has a pixel.
    fn tile_of(&self, place: usize) -> usize {
        let (x, y) = (place % self.width, place / self.width);
        y / TILE * self.width.div_ceil(TILE) + x / TILE
    }
}

fn count(bands: &str) -> usize {
    bands.split(' ').count()
}
