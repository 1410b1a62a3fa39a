//! Netpbm's PAM files of 8-bit bands, the last of them a band of marks where
//! the header says so: 255 for each pixel of a good tile, 0 for each of a
//! marked one.

use std::io::{self, Write};

use crate::image::Drawable;
use crate::library::TILE_SIDE;
use crate::row::{Row, field};

/// What a good tile has in the band of marks.
pub const GOOD: u8 = 255;
const MARKED: u8 = 0;

/// The bands of a row's pixels, by its type.
const BANDS: [&str; 6] = [
    "red green blue",
    "red green blue alpha",
    "grey",
    "grey alpha",
    "index",
    "index alpha",
];

/// The tuple type of so many bands, less one: each is one that programs open
/// with all its bands.
const TUPLE_TYPES: [&str; 5] = [
    "GRAYSCALE",
    "GRAYSCALE_ALPHA",
    "RGB",
    "RGB_ALPHA",
    "CMYK_ALPHA",
];

/// Begins the comment that names the bands.
const NAMES: &str = "# bands: ";
/// Names the band of marks.
const MARK: &str = "mark";

/// Writes a drawable, with a band of marks if `marks` is set.
pub fn write(to: &mut dyn Write, row: &Row, drawable: &Drawable, marks: bool) -> io::Result<()> {
    to.write_all(header(row, marks).as_bytes())?;
    match marks {
        true => write_marked_lines(to, row, drawable),
        false => to.write_all(&drawable.pixels),
    }
}

fn header(row: &Row, marks: bool) -> String {
    let names = BANDS.get(row[field::TYPE] as usize).unwrap_or(&"pixel");
    let (names, depth) = match marks {
        true => (format!("{names} {MARK}"), row[field::DEPTH] + 1),
        false => (names.to_string(), row[field::DEPTH]),
    };
    format!(
        "P7\n{NAMES}{names}\nWIDTH {}\nHEIGHT {}\nDEPTH {depth}\nMAXVAL 255\nTUPLTYPE {}\nENDHDR\n",
        row[field::WIDTH],
        row[field::HEIGHT],
        TUPLE_TYPES[depth as usize - 1]
    )
}

/// Each line of the pixels, every pixel followed by its tile's mark.
fn write_marked_lines(to: &mut dyn Write, row: &Row, drawable: &Drawable) -> io::Result<()> {
    let (width, depth) = (row[field::WIDTH] as usize, row[field::DEPTH] as usize);
    let side = TILE_SIDE as usize;
    let mut samples = vec![0; width * (depth + 1)];
    for (y, line) in drawable.pixels.chunks(width * depth).enumerate() {
        let marks = &drawable.marks[y / side * row.columns()..];
        let parts = samples.chunks_mut(side * (depth + 1));
        for ((pixels, samples), mark) in line.chunks(side * depth).zip(parts).zip(marks) {
            let mark = if *mark == 0 { GOOD } else { MARKED };
            join(depth)(pixels, mark, samples);
        }
        to.write_all(&samples)?;
    }
    Ok(())
}

/// Puts a mark behind each pixel of so many bytes. Each depth has a loop of
/// its own, which the compiler can widen.
fn join(depth: usize) -> fn(&[u8], u8, &mut [u8]) {
    fn join<const DEPTH: usize, const BANDS: usize>(pixels: &[u8], mark: u8, samples: &mut [u8]) {
        let (samples, _) = samples.as_chunks_mut::<BANDS>();
        for (pixel, sample) in pixels.as_chunks::<DEPTH>().0.iter().zip(samples) {
            sample[..DEPTH].copy_from_slice(pixel);
            sample[DEPTH] = mark;
        }
    }
    match depth {
        1 => join::<1, 2>,
        2 => join::<2, 3>,
        3 => join::<3, 4>,
        _ => join::<4, 5>,
    }
}

/// A PAM file that was read.
pub struct Pam<'a> {
    pub width: u32,
    pub height: u32,
    pub bands: u32,
    /// How many bands the header's comment names, and whether the last of them
    /// is one of marks; none where there is no such comment.
    names: Option<(usize, bool)>,
    pub samples: &'a [u8],
}

/// Reads a PAM file, or says why it is none that can be taken.
pub fn parse(bytes: &[u8]) -> Result<Pam<'_>, String> {
    let mut rest = bytes.strip_prefix(b"P7\n").ok_or("is not a PAM file")?;
    let mut header = Header::default();
    loop {
        let end = rest.iter().position(|byte| *byte == b'\n');
        let end = end.ok_or("the header does not end in ENDHDR")?;
        let line = String::from_utf8_lossy(&rest[..end]);
        rest = &rest[end + 1..];
        if line.trim() == "ENDHDR" {
            return header.with(rest);
        }
        header.take(&line)?;
    }
}

/// The lines of a header so far.
#[derive(Default)]
struct Header {
    width: Option<u32>,
    height: Option<u32>,
    bands: Option<u32>,
    most: Option<u32>,
    names: Option<(usize, bool)>,
}

impl Header {
    fn take(&mut self, line: &str) -> Result<(), String> {
        if line.starts_with('#') {
            if let Some(names) = line.strip_prefix(NAMES) {
                let names = names.split_whitespace();
                self.names = Some((names.clone().count(), names.last() == Some(MARK)));
            }
            return Ok(());
        }
        let mut words = line.split_whitespace();
        let word = words.next().unwrap_or_default();
        let number = match word {
            "WIDTH" => &mut self.width,
            "HEIGHT" => &mut self.height,
            "DEPTH" => &mut self.bands,
            "MAXVAL" => &mut self.most,
            "TUPLTYPE" | "" => return Ok(()),
            _ => return Err(format!("the header has the word {word:?}")),
        };
        let value = words.next().unwrap_or_default();
        let value = value.parse().map_err(|_| {
            format!("the header has {word} {value:?}, which is no number of 32 bits")
        })?;
        match number.replace(value) {
            None => Ok(()),
            Some(_) => Err(format!("the header has {word} twice")),
        }
    }

    /// The file of this header and the samples behind it.
    fn with(self, samples: &[u8]) -> Result<Pam<'_>, String> {
        let lacks = |word| format!("the header has no {word}");
        let width = self.width.ok_or_else(|| lacks("WIDTH"))?;
        let height = self.height.ok_or_else(|| lacks("HEIGHT"))?;
        let bands = self.bands.ok_or_else(|| lacks("DEPTH"))?;
        if self.most != Some(255) {
            return Err("MAXVAL is not 255".to_string());
        }
        let due = u128::from(width) * u128::from(height) * u128::from(bands);
        if due != samples.len() as u128 {
            let present = samples.len();
            return Err(format!("{present} bytes of samples, where {due} are due"));
        }
        Ok(Pam {
            width,
            height,
            bands,
            names: self.names,
            samples,
        })
    }
}

impl Pam<'_> {
    /// Whether the last band is one of marks, by the header's comment. One that
    /// was kept while bands were added or taken away tells nothing.
    pub fn has_marks(&self) -> Result<bool, String> {
        match self.names {
            None => Ok(false),
            Some((count, mark)) if count == self.bands as usize => Ok(mark),
            Some((count, _)) => Err(format!(
                "the comment names {count} bands where DEPTH is {}; --mark-band or \
                 --no-mark-band says whether the last is one of marks",
                self.bands
            )),
        }
    }

    /// How many bands stand before one of marks.
    pub fn depth_before_marks(&self) -> Result<u32, String> {
        match self.bands {
            2..=5 => Ok(self.bands - 1),
            _ => Err("a band of marks stands behind 1 to 4 others".to_string()),
        }
    }

    /// The samples of the last band.
    pub fn last_band(&self) -> impl Iterator<Item = u8> {
        let bands = self.bands as usize;
        self.samples.iter().skip(bands - 1).step_by(bands).copied()
    }

    /// Puts the samples of the first bands, all of them or all but the last,
    /// behind `pixels`, where there is room for them.
    pub fn put_bands(&self, depth: u32, pixels: &mut Vec<u8>) {
        let without_last = match (depth, self.bands) {
            (1, 2) => without_last::<1, 2>,
            (2, 3) => without_last::<2, 3>,
            (3, 4) => without_last::<3, 4>,
            (4, 5) => without_last::<4, 5>,
            _ => return pixels.extend_from_slice(self.samples),
        };
        let start = pixels.len();
        let count = self.samples.len() / self.bands as usize;
        pixels.resize(start + count * depth as usize, 0);
        without_last(self.samples, &mut pixels[start..]);
    }
}

/// Each number of bands has a loop of its own, as in `join`.
fn without_last<const DEPTH: usize, const BANDS: usize>(samples: &[u8], pixels: &mut [u8]) {
    let (pixels, _) = pixels.as_chunks_mut::<DEPTH>();
    for (sample, pixel) in samples.as_chunks::<BANDS>().0.iter().zip(pixels) {
        pixel.copy_from_slice(&sample[..DEPTH]);
    }
}
