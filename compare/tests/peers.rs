//! What the library writes, opened in GIMP and in ImageMagick: both find the
//! drawables that were lent, and the same pixels in them. In version 11, GIMP
//! does and the library itself.

use std::fs;

use xcf_compare::answer::{DecodeAnswer, ReadAnswer, Row, TABLE_LENGTH};
use xcf_compare::files::widened;
use xcf_compare::gimp::{self, Facts, INDEXED_FILE, with_old_map_length, without_places};
use xcf_compare::guard::difference;
use xcf_compare::pictures::Content::{Mixed, Noise, White};
use xcf_compare::pictures::{ACTIVE, APPLY_MASK, Picture, SELECTION, VISIBLE};
use xcf_compare::programs::{IMAGE_MAGICK, Scratch, is_here, limited, open_in_gimp, run};
use xcf_compare::tables::TableCase;
use xcf_compare::{library, report};

/// What GIMP calls a layer without a name.
const NAMELESS: &str = "Layer";

/// RGB, with all that a row can say. GIMP calls a mask and a selection as they
/// are called here, whatever the file calls them.
fn colours() -> Picture {
    Picture::new("colours", [70, 66], 0)
        .layer("leaf, 葉 ✓", [63, 129], true, Noise)
        .at(-20, 300_000)
        .opacity(131)
        .flags(VISIBLE + APPLY_MASK)
        .mask("leaf, 葉 ✓ mask", Mixed)
        .layer("", [65, 1], false, Noise)
        .flags(ACTIVE)
        .layer("bare", [66, 3], true, Mixed)
        .at(5, -7)
        .mask("bare mask", Noise)
        .opacity(1)
        .layer("ground", [70, 66], false, Mixed)
        .opacity(77)
        .mode(3)
        .channel("first", Mixed)
        .opacity(200)
        .channel("second", White)
        .flags(0)
        .channel("Selection Mask", Noise)
        .flags(VISIBLE + SELECTION)
}

/// Greyscale, with an active channel.
fn greys() -> Picture {
    Picture::new("greys", [65, 64], 1)
        .layer("pen", [65, 67], true, Mixed)
        .opacity(0)
        .flags(APPLY_MASK)
        .mask("pen mask", White)
        .flags(0)
        .layer("paper", [64, 64], false, Noise)
        .channel("suspect", Noise)
        .flags(VISIBLE + ACTIVE)
}

/// Modes that GIMP gives to layers, of which some make the file one of version
/// 2; and a name as long as it can be.
fn modes() -> Picture {
    let picture = Picture::new("modes", [9, 7], 0)
        .layer(&"n".repeat(1_024), [1, 200], true, Noise)
        .flags(VISIBLE + ACTIVE);
    let modes = [1, 3, 4, 6, 10, 15, 18, 19, 20, 21];
    modes.into_iter().fold(picture, |picture, mode| {
        let name = format!("mode {mode}");
        picture.layer(&name, [9, 7], true, Noise).mode(mode)
    })
}

/// Long runs.
fn blank() -> Picture {
    Picture::new("blank", [130, 70], 0)
        .layer("blank", [130, 70], false, White)
        .flags(VISIBLE + ACTIVE)
}

/// A single pixel.
fn tiny() -> Picture {
    Picture::new("tiny", [1, 1], 1)
        .layer("dot", [1, 1], true, Noise)
        .flags(VISIBLE + ACTIVE)
}

/// No drawables.
fn empty() -> Picture {
    Picture::new("empty", [5, 3], 0)
}

/// What is written for the other programs.
fn pictures() -> Vec<Picture> {
    vec![colours(), greys(), modes(), blank(), tiny(), empty()]
}

/// The file that the library writes of a picture.
fn write(picture: &Picture) -> Vec<u8> {
    let (answer, mut output) = picture.case().write(library::write);
    assert_eq!(answer.number, 0, "{}", picture.name);
    output.lent()[..answer.length as usize].to_vec()
}

/// A folder with a file of each picture.
fn written(pictures: &[Picture], name: &str, file: impl Fn(&Picture) -> Vec<u8>) -> Scratch {
    let scratch = Scratch::new(name);
    for picture in pictures {
        fs::write(scratch.file(picture.name, "xcf"), file(picture)).unwrap();
    }
    scratch
}

/// The row's name in GIMP, which has none that is empty.
fn name_in_gimp<'a>(case: &'a TableCase, row: &Row) -> &'a [u8] {
    match case.name(row) {
        b"" => NAMELESS.as_bytes(),
        name => name,
    }
}

/// Asserts that GIMP found the picture's canvas, rows and pixels.
fn assert_found_by_gimp(picture: &Picture, scratch: &Scratch) {
    let name = picture.name;
    let facts = Facts::read(&scratch.file(name, "txt"));
    assert_eq!([facts.width, facts.height], picture.sides, "{name}");
    assert_eq!(facts.base, picture.base, "{name}");
    assert_eq!(facts.drawables.len(), picture.rows().len(), "{name}");
    let case = picture.case();
    for (k, (row, lent)) in picture.rows().iter().zip(picture.drawables()).enumerate() {
        let found = &facts.drawables[k];
        let mut expected = without_places(row);
        expected[6] = name_in_gimp(&case, row).len() as u32;
        assert_eq!(found.row, expected, "{name}");
        assert_eq!(found.name.as_bytes(), name_in_gimp(&case, row), "{name}");
        let pixels = gimp::exported_pixels(&scratch.file(name, &format!("{k}.hex")));
        assert_same(&pixels, lent, &format!("{name}, row {k}"));
    }
}

fn assert_same(found: &[u8], lent: &[u8], what: &str) {
    assert_eq!(found.len(), lent.len(), "{what}");
    assert_eq!(difference(found, lent), None, "{what}");
}

#[test]
fn gimp_opens_what_is_written() {
    if !is_here("gimp") {
        report("GIMP is not on this machine: what is written was not opened in it");
        return;
    }
    let pictures = pictures();
    assert_all_found_by_gimp(&pictures, &written(&pictures, "gimp", write));
    report_found("GIMP", &pictures, |_| true);
}

/// Asserts that GIMP finds each picture in its file.
fn assert_all_found_by_gimp(pictures: &[Picture], scratch: &Scratch) {
    let files = pictures
        .iter()
        .map(|picture| scratch.file(picture.name, "xcf"));
    open_in_gimp(scratch, &files.collect::<Vec<_>>());
    for picture in pictures {
        assert_found_by_gimp(picture, scratch);
    }
}

/// What the library writes of a picture, in version 11.
fn write_version_11(picture: &Picture) -> Vec<u8> {
    widened(&write(picture))
}

#[test]
fn library_reads_version_11() {
    let pictures = pictures();
    for picture in &pictures {
        assert_found_by_library(picture, &write_version_11(picture));
    }
    report_found("the library, version 11", &pictures, |_| true);
}

#[test]
fn gimp_opens_version_11() {
    if !is_here("gimp") {
        report("GIMP is not on this machine: no file of version 11 was opened in it");
        return;
    }
    let pictures = pictures();
    let scratch = written(&pictures, "version-11", write_version_11);
    assert_all_found_by_gimp(&pictures, &scratch);
    report_found("GIMP, version 11", &pictures, |_| true);
}

/// Asserts that the library finds the picture's canvas, rows and pixels in a
/// file of version 11.
fn assert_found_by_library(picture: &Picture, file: &[u8]) {
    let (name, mut table) = (picture.name, vec![0; TABLE_LENGTH]);
    let answer = library::read(file, &mut table);
    let [width, height] = picture.sides.map(u64::from);
    let image = [width, height, picture.base.into(), 11, 1];
    let expected = ReadAnswer::accepted(image, picture.rows().len());
    assert_eq!(answer, expected, "{name}");
    let rows: &[Row] = table.as_chunks().0;
    for (k, (lent, pixels)) in picture.rows().iter().zip(picture.drawables()).enumerate() {
        assert_eq!(without_places(&rows[k]), without_places(lent), "{name}");
        let mut found = vec![0xA5; pixels.len()];
        let mut marks = vec![0xA5; lent[9] as usize];
        let answer = library::decode(file, &table, k as u32, 1, 8, &mut found, &mut marks);
        assert_eq!(answer, DecodeAnswer::decoded(0), "{name}");
        assert_same(&found, pixels, &format!("{name}, row {k}"));
    }
}

/// What the rules take, GIMP takes: in an indexed file with the length word of
/// old releases it finds what it found in the file that it wrote.
#[test]
fn gimp_opens_an_old_colour_map() {
    if !is_here("gimp") {
        report("GIMP is not on this machine: an old colour map was not opened in it");
        return;
    }
    let stored = |extension: &str| gimp::data_folder().join(format!("{INDEXED_FILE}.{extension}"));
    let scratch = Scratch::new("old-map");
    let file = scratch.file(INDEXED_FILE, "xcf");
    let old = with_old_map_length(&fs::read(stored("xcf")).unwrap());
    fs::write(&file, old).unwrap();
    open_in_gimp(&scratch, &[file]);
    let facts = Facts::read(&scratch.file(INDEXED_FILE, "txt"));
    assert_eq!(facts, Facts::read(&stored("txt")));
    for k in 0..facts.drawables.len() {
        let pixels = gimp::exported_pixels(&scratch.file(INDEXED_FILE, &format!("{k}.hex")));
        let whole = fs::read(stored(&format!("{k}.raw"))).unwrap();
        assert_same(&pixels, &whole, &format!("row {k}"));
    }
}

/// Prints how many drawables of the pictures a program found as they were lent.
fn report_found(program: &str, pictures: &[Picture], is_compared: fn(&Row) -> bool) {
    let rows = pictures.iter().flat_map(Picture::rows);
    let count = rows.filter(|row| is_compared(row)).count();
    let files = pictures.len();
    report(&format!(
        "{program}: {count} drawables of {files} written files, each as it was lent"
    ));
}

/// What ImageMagick prints for a file, or for a layer of it.
fn in_image_magick(file: &str, arguments: &[&str]) -> Vec<u8> {
    run(limited(IMAGE_MAGICK).arg(file).args(arguments)).stdout
}

/// A layer's pixels as ImageMagick gives them: four bytes each. One without
/// alpha takes the layer's opacity for it.
fn with_alpha(row: &Row, pixels: &[u8]) -> Vec<u8> {
    let opacity = row[10] as u8;
    let pixels = pixels.chunks(row[3] as usize);
    let four = pixels.map(|pixel| match *pixel {
        [grey] => [grey, grey, grey, opacity],
        [grey, alpha] => [grey, grey, grey, alpha],
        [red, green, blue] => [red, green, blue, opacity],
        [red, green, blue, alpha] => [red, green, blue, alpha],
        _ => unreachable!("no depth is above 4"),
    });
    four.collect::<Vec<[u8; 4]>>().concat()
}

/// Asserts that ImageMagick found the picture's layers, the last one first,
/// with their sides, places and pixels. It gives no masks and no channels.
fn assert_found_by_image_magick(picture: &Picture, scratch: &Scratch) {
    let file = scratch.file(picture.name, "xcf");
    let file = file.to_str().expect("a plain name");
    let drawables = picture.rows().iter().zip(picture.drawables());
    let layers: Vec<(&Row, &[u8])> = drawables.filter(|(row, _)| is_layer(row)).rev().collect();
    let sides = in_image_magick(file, &["-format", "%w %h %X %Y\n", "info:-"]);
    let expected = layers.iter().map(|(row, _)| {
        let [x, y] = [row[12], row[13]].map(|offset| offset as i32);
        format!("{} {} {x:+} {y:+}\n", row[1], row[2])
    });
    assert_eq!(
        String::from_utf8_lossy(&sides),
        expected.collect::<String>()
    );
    for (k, (row, lent)) in layers.into_iter().enumerate() {
        let found = in_image_magick(&format!("{file}[{k}]"), &["-depth", "8", "rgba:-"]);
        let what = format!("{}, layer {k} from the last", picture.name);
        assert_same(&found, &with_alpha(row, lent), &what);
    }
}

fn is_layer(row: &Row) -> bool {
    row[0] == 1
}

#[test]
fn image_magick_opens_what_is_written() {
    if !is_here(IMAGE_MAGICK) {
        report("ImageMagick is not on this machine: what is written was not opened in it");
        return;
    }
    let mut pictures = pictures();
    // It opens no file without layers.
    pictures.retain(|picture| picture.rows().iter().any(is_layer));
    let scratch = written(&pictures, "image-magick", write);
    for picture in &pictures {
        assert_found_by_image_magick(picture, &scratch);
    }
    report_found("ImageMagick", &pictures, is_layer);
}
