//! `xcf extract`.

mod common;

use std::process::Command;

use common::files::{INDEXED, INDEXED_ALPHA, altered, example, indexed};
use common::folder::answer;
use common::refusals::refused_files;
use common::{Folder, Pam, not_here};

const UNUSABLE: &str = "refused 14 at 0: there is no such row, or the row, tile, compression or size of pointers cannot be used";

#[test]
fn the_example_is_extracted() {
    let folder = Folder::with("example.xcf", &example());
    folder.xcf("extract example.xcf 0 out.pam").is(0, "", "");
    let header = "P7\n# bands: grey mark\nWIDTH 1\nHEIGHT 1\nDEPTH 2\nMAXVAL 255\n\
                  TUPLTYPE GRAYSCALE_ALPHA\nENDHDR\n";
    assert_eq!(
        folder.get("out.pam"),
        [header.as_bytes(), &[255, 255]].concat()
    );
    assert_eq!(folder.names(), ["example.xcf", "out.pam"]);
}

#[test]
fn the_band_of_marks_can_be_left_out() {
    let header = "P7\n# bands: grey\nWIDTH 1\nHEIGHT 1\nDEPTH 1\nMAXVAL 255\n\
                  TUPLTYPE GRAYSCALE\nENDHDR\n";
    let file = [header.as_bytes(), &[255]].concat();
    let folder = Folder::with("example.xcf", &example());
    folder
        .xcf("extract --no-marks example.xcf 0 out.pam")
        .is(0, "", "");
    assert_eq!(folder.get("out.pam"), file);
    // Options may stand behind other words.
    folder
        .xcf("extract example.xcf 0 behind.pam --no-marks")
        .is(0, "", "");
    assert_eq!(folder.get("behind.pam"), file);
}

#[test]
fn standard_input_and_output_are_taken() {
    let folder = Folder::with("example.xcf", &example());
    folder.xcf("extract example.xcf 0 out.pam").is(0, "", "");
    let file = folder.get("out.pam");
    for words in ["extract example.xcf 0 -", "extract - 0 -"] {
        let extracted = folder.xcf_from(words, &example());
        assert_eq!((extracted.status, extracted.stderr.as_str()), (0, ""));
        assert_eq!(extracted.stdout, file);
    }
    folder
        .xcf_from("extract - 0 in.pam", &example())
        .is(0, "", "");
    assert_eq!(folder.get("in.pam"), file);
    assert_eq!(folder.names(), ["example.xcf", "in.pam", "out.pam"]);
}

/// Each type of layer, a mask and a channel, over several tiles of odd sizes.
#[test]
fn every_type_has_its_bands_and_pixels() {
    let bands = [
        "grey",
        "grey alpha",
        "red green blue",
        "red green blue alpha",
    ];
    for bands in bands {
        for (width, height) in [(1, 1), (64, 64), (65, 63), (200, 150), (1, 300)] {
            let layer = Pam::noise(width, height, bands);
            let mask = Pam::noise(width, height, "grey");
            let channel = Pam::flat(width, height, "grey", 255);
            let folder = Folder::with("layer.pam", &layer.bytes());
            folder.put("mask.pam", &mask.bytes());
            folder.put("channel.pam", &channel.bytes());
            let items = "--layer l layer.pam --mask m mask.pam --channel c channel.pam";
            folder.xcf(&format!("pack all.xcf {items}")).is(0, "", "");
            for (row, packed) in [layer, mask, channel].iter().enumerate() {
                extracts(&folder, &format!("all.xcf {row}"), packed);
            }
        }
    }
}

/// Holds a row to these pixels, with and without the band of marks.
#[track_caller]
fn extracts(folder: &Folder, file_and_row: &str, pixels: &Pam) {
    let extract = format!("extract --force {file_and_row}");
    folder.xcf(&format!("{extract} out.pam")).is(0, "", "");
    assert!(
        folder.get("out.pam") == pixels.with_marks(&[]).bytes(),
        "{file_and_row}"
    );
    folder
        .xcf(&format!("{extract} out.pam --no-marks"))
        .is(0, "", "");
    assert!(folder.get("out.pam") == pixels.bytes(), "{file_and_row}");
}

#[test]
fn an_indexed_row_has_the_palettes_numbers() {
    let files = [
        (INDEXED, Pam::new(2, 1, "index", vec![0, 1])),
        (
            INDEXED_ALPHA,
            Pam::new(2, 1, "index alpha", vec![0, 255, 1, 0]),
        ),
    ];
    for (layer_type, pixels) in files {
        let folder = Folder::with("map.xcf", &indexed(layer_type));
        extracts(&folder, "map.xcf 0", &pixels);
    }
}

/// A marked tile's pixels are zero, all others are as they were packed;
/// the file is written, the tiles are told of, and the status is 1.
#[test]
fn marked_tiles_are_zero_and_told_of() {
    let told = "xcf: pen.xcf: row 0 \"pen\": 3 of 12 tiles marked\n";
    for bands in ["grey", "red green blue alpha"] {
        let pixels = Pam::noise(200, 150, bands);
        let folder = Folder::with_layer("pen.xcf", &pixels);
        folder.damage("pen.xcf", 0, &[0, 5, 11]);
        let extracted = pixels.with_marks(&[0, 5, 11]);
        folder.xcf("extract pen.xcf 0 out.pam").is(1, "", told);
        assert!(folder.get("out.pam") == extracted.bytes());
        folder
            .xcf("extract pen.xcf 0 bare.pam --no-marks")
            .is(1, "", told);
        assert!(folder.get("bare.pam") == extracted.without_marks().bytes());
        let piped = folder.xcf("extract pen.xcf 0 -");
        assert_eq!((piped.status, piped.stderr.as_str()), (1, told));
        assert!(piped.stdout == extracted.bytes());
        assert_eq!(folder.names(), ["bare.pam", "out.pam", "pen.xcf"]);
    }
}

#[test]
fn a_row_that_is_not_there_is_refused() {
    let folder = Folder::with("example.xcf", &example());
    let said = format!("xcf: example.xcf: {UNUSABLE}\n");
    for row in [1, 16, 127, 128, 2048, u32::MAX] {
        folder
            .xcf(&format!("extract example.xcf {row} out.pam"))
            .is(1, "", &said);
    }
    folder.xcf("extract example.xcf 1 -").is(1, "", &said);
    assert_eq!(folder.names(), ["example.xcf"]);
}

/// A number is a number, however large.
#[test]
fn a_row_of_more_than_32_bits_is_refused() {
    let folder = Folder::with("example.xcf", &example());
    let said = format!("xcf: example.xcf: {UNUSABLE}\n");
    for row in [1 << 32, u64::MAX] {
        folder
            .xcf(&format!("extract example.xcf {row} out.pam"))
            .is(1, "", &said);
    }
}

#[test]
fn a_row_is_a_number() {
    let folder = Folder::with("example.xcf", &example());
    for row in ["s", "0x0", "1.0", "", "-1", "+", "0 "] {
        folder
            .run(["extract", "example.xcf", row, "out.pam"])
            .is_usage("extract");
    }
    assert_eq!(folder.names(), ["example.xcf"]);
}

#[test]
fn a_refused_file_gives_no_output() {
    let folder = Folder::new();
    for (file, said) in refused_files() {
        folder.put("bad.xcf", &file);
        let extracted = folder.xcf("extract bad.xcf 0 out.pam");
        extracted.is(1, "", &format!("xcf: bad.xcf: {said}\n"));
    }
    assert_eq!(folder.names(), ["bad.xcf"]);
}

#[test]
fn a_file_that_is_there_is_replaced_only_by_force() {
    let folder = Folder::with("example.xcf", &example());
    folder.put("out.pam", b"kept");
    folder
        .xcf("extract example.xcf 0 out.pam")
        .fails(2, &["xcf: out.pam: ", "--force"]);
    assert_eq!(folder.get("out.pam"), b"kept");
    folder
        .xcf("extract example.xcf 0 out.pam --force")
        .is(0, "", "");
    let extracted = Pam::flat(1, 1, "grey", 255).with_marks(&[]);
    assert_eq!(folder.get("out.pam"), extracted.bytes());
    // What is refused replaces nothing.
    folder.put("out.pam", b"kept");
    folder.put("bad.xcf", &altered(0, 0));
    assert_eq!(folder.xcf("extract --force bad.xcf 0 out.pam").status, 1);
    assert_eq!(folder.get("out.pam"), b"kept");
    assert_eq!(folder.names(), ["bad.xcf", "example.xcf", "out.pam"]);
}

/// Files of up to 4 bands are PNG files with the same bands.
#[test]
fn netpbm_opens_what_is_extracted() {
    if Command::new("pamtopng").arg("--version").output().is_err() {
        return not_here("Netpbm's pamtopng is not on this machine");
    }
    for bands in ["grey", "grey alpha", "red green blue"] {
        let pixels = Pam::noise(70, 65, bands);
        let folder = Folder::with_layer("pen.xcf", &pixels);
        folder.xcf("extract pen.xcf 0 out.pam").is(0, "", "");
        let png = answer(folder.program("pamtopng").arg("out.pam"));
        assert_eq!(png.status, 0, "{}", png.stderr);
        folder.put("out.png", &png.stdout);
        // With 2 or 4 bands the marks are the PNG file's alpha.
        let extracted = pixels.with_marks(&[]);
        let alpha = extracted.depth().is_multiple_of(2).then_some("-alphapam");
        let back = answer(folder.program("pngtopam").args(alpha).arg("out.png"));
        assert!(back.stdout.ends_with(&extracted.pixels), "{bands}");
    }
}
