//! `xcf pack`.

mod common;

use common::files::example;
use common::{Folder, Pam};

const GOOD: &str = "P7\nWIDTH 2\nHEIGHT 1\nDEPTH 1\nMAXVAL 255\nTUPLTYPE GRAYSCALE\nENDHDR\nab";

#[test]
fn the_example_is_packed() {
    let folder = Folder::with("s.pam", &Pam::flat(1, 1, "grey", 255).bytes());
    folder
        .xcf("pack example.xcf --channel s s.pam --visible")
        .is(0, "", "");
    assert_eq!(folder.get("example.xcf"), example());
    assert_eq!(folder.names(), ["example.xcf", "s.pam"]);
}

#[test]
fn what_is_said_of_an_item_stands_in_its_row() {
    let folder = Folder::with("p.pam", &Pam::flat(2, 3, "grey", 9).bytes());
    // Opacity, flags, offsets as stored, mode and owner.
    let layers = [
        ("", [255, 1, 0, 0, 0, 0]),
        ("--visible", [255, 1, 0, 0, 0, 0]),
        ("--hidden", [255, 0, 0, 0, 0, 0]),
        ("--opacity 0", [0, 1, 0, 0, 0, 0]),
        ("--active --opacity 128", [128, 9, 0, 0, 0, 0]),
        ("--offset 7,-1", [255, 1, 7, 4_294_967_295, 0, 0]),
        (
            "--offset -2147483648,2147483647",
            [255, 1, 2_147_483_648, 2_147_483_647, 0, 0],
        ),
        ("--mode 18 --hidden", [255, 0, 0, 0, 18, 0]),
    ];
    let channels = [
        ("", [255, 0, 0, 0, 0, 0]),
        ("--hidden", [255, 0, 0, 0, 0, 0]),
        ("--visible", [255, 1, 0, 0, 0, 0]),
        ("--selection --active", [255, 12, 0, 0, 0, 0]),
        ("--opacity 1", [1, 0, 0, 0, 0, 0]),
    ];
    let layers = layers.map(|(said, numbers)| ("layer", said, numbers));
    let channels = channels.map(|(said, numbers)| ("channel", said, numbers));
    for (kind, said, numbers) in layers.into_iter().chain(channels) {
        let packed = folder.xcf(&format!("pack --force o.xcf --{kind} name p.pam {said}"));
        packed.is(0, "", "");
        let row = &folder.listing("o.xcf").rows[0];
        assert_eq!(
            (row.kind.as_str(), &row.fields[10..]),
            (kind, &numbers[..]),
            "{said}"
        );
    }
}

#[test]
fn a_mask_belongs_to_its_layer() {
    let folder = Folder::with("p.pam", &Pam::flat(2, 3, "grey", 9).bytes());
    let packed = folder.xcf(
        "pack o.xcf --layer a p.pam --layer b p.pam --offset 4,5 --mask m p.pam \
         --layer c p.pam --mask n p.pam --unapplied --selection --active",
    );
    packed.is(0, "", "");
    let found: Vec<_> = folder.listing("o.xcf").rows.into_iter().collect();
    let found: Vec<_> = found
        .iter()
        .map(|row| (row.kind.as_str(), &row.fields[10..]))
        .collect();
    let awaited: [(&str, &[usize]); 5] = [
        ("layer", &[255, 1, 0, 0, 0, 0]),
        ("layer", &[255, 3, 4, 5, 0, 1]),
        ("mask", &[255, 0, 4, 5, 0, 1]),
        ("layer", &[255, 1, 0, 0, 0, 3]),
        ("mask", &[255, 12, 0, 0, 0, 3]),
    ];
    assert_eq!(found, awaited);
}

/// Items and options, and the canvas's sides, the base and the version.
const HEADS: [(&str, [usize; 4]); 10] = [
    ("--layer a rgb.pam --layer b rgb.pam", [2, 3, 0, 0]),
    ("--layer a grey.pam", [5, 4, 1, 0]),
    ("--canvas 300x1 --layer a rgb.pam", [300, 1, 0, 0]),
    ("--layer a grey.pam --canvas 9x8", [9, 8, 1, 0]),
    ("--channel c grey.pam", [5, 4, 1, 0]),
    ("--base rgb --channel c grey.pam", [5, 4, 0, 0]),
    ("--base grey --channel c grey.pam", [5, 4, 1, 0]),
    ("--layer a rgb.pam --mode 18", [2, 3, 0, 0]),
    ("--layer a rgb.pam --mode 19", [2, 3, 0, 2]),
    ("--layer a rgb.pam --mode 21", [2, 3, 0, 2]),
];

#[test]
fn the_canvas_and_the_base_are_as_said() {
    let folder = Folder::with("rgb.pam", &Pam::flat(2, 3, "red green blue", 9).bytes());
    folder.put("grey.pam", &Pam::flat(5, 4, "grey", 9).bytes());
    for (words, head) in HEADS {
        folder
            .xcf(&format!("pack --force o.xcf {words}"))
            .is(0, "", "");
        let found = folder.listing("o.xcf");
        let found = [found.width, found.height, found.base, found.version];
        assert_eq!(found, head, "{words}");
    }
}

#[test]
fn the_header_of_a_pam_file_is_free_in_form() {
    let headers = [
        "P7\nENDHDR_",
        "P7\n# a comment\n\n#another\nENDHDR_",
        "P7\nTUPLTYPE GRAYSCALE\nENDHDR_",
        "P7\nTUPLTYPE WHATEVER\n# bands: grey\nENDHDR_",
        "P7\n \t TUPLTYPE  GRAYSCALE \n ENDHDR_",
    ];
    let lines = ["WIDTH 2\n", " HEIGHT 1\n", "DEPTH\t 1 \n", "MAXVAL 255\n"];
    let folder = Folder::with("good.pam", GOOD.as_bytes());
    folder.xcf("pack good.xcf --layer a good.pam").is(0, "", "");
    for header in headers {
        for turn in 0..4 {
            let mut lines = lines;
            lines.rotate_left(turn);
            let lines = lines.concat() + "ENDHDR\nab";
            folder.put("free.pam", header.replace("ENDHDR_", &lines).as_bytes());
            folder
                .xcf("pack --force free.xcf --layer a free.pam")
                .is(0, "", "");
            assert_eq!(folder.get("free.xcf"), folder.get("good.xcf"));
        }
    }
}

/// Parts of the good file, and what makes it a faulty one in their place.
const FAULTS: [(&str, &str); 25] = [
    ("WIDTH 2\n", "WIDTH 2\nWIDTH 2\n"),
    ("DEPTH 1\n", "DEPTH 99999999999\n"),
    ("P7", "P5"),
    ("P7", "P7 "),
    (GOOD, ""),
    ("MAXVAL 255", "MAXVAL 65535"),
    ("MAXVAL 255", "MAXVAL 1"),
    ("MAXVAL 255\n", ""),
    ("WIDTH 2\n", ""),
    ("WIDTH 2", "WIDTH 0"),
    ("WIDTH 2", "WIDTH two"),
    ("WIDTH 2", "WIDTH -2"),
    ("WIDTH 2", "WIDTH"),
    ("WIDTH 2", "WIDTH 18446744073709551616"),
    ("WIDTH 2\nHEIGHT 1", "WIDTH 4294967296\nHEIGHT 4294967296"),
    ("HEIGHT 1\n", ""),
    ("HEIGHT 1", "HEIGHT 3"),
    ("DEPTH 1\n", ""),
    ("DEPTH 1", "DEPTH 0"),
    (
        "WIDTH 2\nHEIGHT 1\nDEPTH 1",
        "WIDTH 1\nHEIGHT 1\nDEPTH 2\nDEPTH 7",
    ),
    ("DEPTH 1", "COLOUR 1\nDEPTH 1"),
    ("ENDHDR\nab", ""),
    ("ENDHDR\nab", "ENDHDR"),
    ("\nab", "\na"),
    ("\nab", "\nabc"),
];

#[test]
fn a_faulty_pam_file_is_refused_by_its_name() {
    let folder = Folder::new();
    for (old, new) in FAULTS {
        folder.put("bad.pam", GOOD.replacen(old, new, 1).as_bytes());
        let packed = folder.xcf("pack out.xcf --layer a bad.pam");
        packed.fails(1, &["xcf: bad.pam: "]);
        assert_eq!(folder.names(), ["bad.pam"], "{old:?} {new:?}");
    }
}

#[test]
fn an_item_has_its_number_of_bands() {
    let folder = Folder::with("good.pam", GOOD.as_bytes());
    for depth in 1..=6 {
        let lines = format!("WIDTH 2\nHEIGHT 1\nDEPTH {depth}\nMAXVAL 255\n");
        let pixels = "ab".repeat(depth);
        folder.put("in.pam", format!("P7\n{lines}ENDHDR\n{pixels}").as_bytes());
        for (items, most, name) in [
            ("--layer a in.pam", 4, "\"a\""),
            ("--layer a good.pam --mask m in.pam", 1, "\"m\""),
            ("--channel c in.pam", 1, "\"c\""),
        ] {
            let packed = folder.xcf(&format!("pack --force o.xcf {items}"));
            match depth <= most {
                true => packed.is(0, "", ""),
                false => packed.fails(1, &["xcf: o.xcf: refused 17 at ", name]),
            }
        }
    }
}

/// A band of marks without a marked pixel is not part of the pixels.
#[test]
fn a_band_of_marks_is_left_out() {
    for bands in [
        "grey",
        "grey alpha",
        "red green blue",
        "red green blue alpha",
    ] {
        let pixels = Pam::noise(70, 65, bands);
        let folder = Folder::with_layer("bare.xcf", &pixels);
        folder.put("marks.pam", &pixels.with_marks(&[]).bytes());
        folder.put("unnamed.pam", &pixels.with_marks(&[]).unnamed_bytes());
        folder
            .xcf("pack marks.xcf --layer pen marks.pam")
            .is(0, "", "");
        folder
            .xcf("pack said.xcf --layer pen marks.pam --mark-band")
            .is(0, "", "");
        folder
            .xcf("pack unnamed.xcf --layer pen unnamed.pam --mark-band")
            .is(0, "", "");
        for file in ["marks.xcf", "said.xcf", "unnamed.xcf"] {
            assert!(
                folder.get(file) == folder.get("bare.xcf"),
                "{bands}, {file}"
            );
        }
    }
}

#[test]
fn a_band_of_marks_alone_is_no_picture() {
    let folder = Folder::with("marks.pam", &Pam::flat(1, 1, "mark", 255).bytes());
    folder.put("grey.pam", &Pam::flat(1, 1, "grey", 255).bytes());
    for (file, said) in [
        ("marks.pam", ""),
        ("marks.pam", "--marks kept"),
        ("grey.pam", "--mark-band"),
    ] {
        let packed = folder.xcf(&format!("pack o.xcf --layer a {file} {said}"));
        packed.fails(1, &[&format!("xcf: {file}: ")]);
    }
    // A band that is to be kept must be there.
    let packed = folder.xcf("pack o.xcf --layer a grey.pam --marks kept");
    packed.fails(1, &["xcf: grey.pam: "]);
    assert_eq!(folder.names(), ["grey.pam", "marks.pam"]);
}

/// Marked pixels are not packed as if they were good.
#[test]
fn marked_pixels_are_refused() {
    let marked = Pam::noise(200, 150, "grey").with_marks(&[7]);
    let folder = Folder::with("marked.pam", &marked.bytes());
    folder.put("unnamed.pam", &marked.unnamed_bytes());
    folder.put("good.pam", &Pam::noise(200, 150, "grey").bytes());
    for items in [
        "--layer a marked.pam",
        "--layer a unnamed.pam --mark-band",
        "--layer a good.pam --mask m marked.pam",
        "--channel c marked.pam",
        "--layer a marked.pam --marks kept --channel c marked.pam",
    ] {
        let packed = folder.xcf(&format!("pack o.xcf {items}"));
        packed.fails(1, &["xcf: ", ".pam"]);
        assert_eq!(folder.names(), ["good.pam", "marked.pam", "unnamed.pam"]);
    }
}

/// A kept band of marks is a hidden channel behind the others.
#[test]
fn marks_can_be_kept_as_a_channel() {
    let pixels = Pam::noise(200, 150, "grey");
    let marked = pixels.with_marks(&[0, 7]);
    let folder = Folder::with("marked.pam", &marked.bytes());
    folder.put("good.pam", &pixels.with_marks(&[]).bytes());
    let packed = folder.xcf(
        "pack o.xcf --layer a marked.pam --marks holes --layer b good.pam --marks none \
         --channel c good.pam --visible",
    );
    packed.is(0, "", "");
    let holes = marked.pixels.chunks(2).map(|pixel| pixel[1]).collect();
    let rows = [
        ("layer", 1, "\"a\"", marked.without_marks()),
        ("layer", 1, "\"b\"", pixels.clone()),
        ("channel", 1, "\"c\"", pixels),
        ("channel", 0, "\"holes\"", Pam::new(200, 150, "grey", holes)),
        ("channel", 0, "\"none\"", Pam::flat(200, 150, "grey", 255)),
    ];
    let found = folder.listing("o.xcf").rows;
    assert_eq!(found.len(), rows.len());
    let shown = folder.xcf("show o.xcf");
    let lines = shown.text().lines().skip(2);
    for (number, ((kind, flags, name, pixels), line)) in rows.into_iter().zip(lines).enumerate() {
        let row = &found[number];
        assert_eq!((row.kind.as_str(), row.fields[11]), (kind, flags), "{line}");
        assert!(line.ends_with(name), "{line}");
        let extracted = folder.xcf(&format!("extract o.xcf {number} - --no-marks"));
        assert!(extracted.stdout == pixels.bytes(), "{line}");
    }
}

/// A layer that is smaller than the canvas, or lies elsewhere, has its marks
/// where it lies.
#[test]
fn kept_marks_lie_where_their_layer_does() {
    let samples = vec![1, 255, 0, 0, 3, 255, 0, 7];
    let folder = Folder::with("s.pam", &Pam::new(2, 2, "grey mark", samples).bytes());
    let pack = |offset| {
        folder.xcf(&format!(
            "pack --force o.xcf --canvas 4x3 --layer pen s.pam --offset {offset} --marks holes"
        ))
    };
    for (offset, marked) in [("0,0", [1, 5]), ("2,1", [7, 11]), ("-1,1", [4, 8])] {
        pack(offset).is(0, "", "");
        let mut channel = vec![255; 12];
        channel[marked[0]] = 0;
        channel[marked[1]] = 7;
        let extracted = folder.xcf("extract o.xcf 1 - --no-marks");
        assert!(
            extracted.stdout == Pam::new(4, 3, "grey", channel).bytes(),
            "{offset}"
        );
    }
    let kept = folder.get("o.xcf");
    let said = "xcf: \"holes\": marked pixels lie outside the canvas\n";
    for offset in [
        "-2,0",
        "3,0",
        "0,-1",
        "0,2",
        "2147483647,0",
        "0,-2147483648",
    ] {
        pack(offset).is(1, "", said);
    }
    assert!(folder.get("o.xcf") == kept);
}

/// A program may add or remove bands and keep the comment that names them.
#[test]
fn a_comment_for_other_bands_decides_nothing() {
    let bytes = Pam::flat(2, 1, "red green blue", 255).bytes();
    let text = String::from_utf8_lossy(&bytes[..bytes.len() - 6]).into_owned();
    let stale = text.replace(
        "# bands: red green blue\n",
        "# bands: red green blue mark\n",
    );
    let folder = Folder::with("s.pam", &[stale.as_bytes(), &[255; 6]].concat());
    let packed = folder.xcf("pack o.xcf --layer a s.pam");
    packed.fails(
        1,
        &["xcf: s.pam: the comment names 4 bands where DEPTH is 3"],
    );
    for (said, layer_type) in [("--no-mark-band", 0), ("--mark-band", 3)] {
        folder
            .xcf(&format!("pack --force o.xcf --layer a s.pam {said}"))
            .is(0, "", "");
        assert_eq!(folder.listing("o.xcf").rows[0].fields[4], layer_type);
    }
}

/// Pixels that were marked in a file stay told of, all the way round.
#[test]
fn damage_is_kept_when_a_file_is_packed_again() {
    let folder = Folder::with_layer("pen.xcf", &Pam::noise(200, 150, "red green blue"));
    folder.damage("pen.xcf", 0, &[4]);
    assert_eq!(folder.xcf("extract pen.xcf 0 pen.pam").status, 1);
    folder
        .xcf("pack new.xcf --layer pen pen.pam --marks holes")
        .is(0, "", "");
    folder
        .xcf("extract new.xcf 0 pen2.pam --no-marks")
        .is(0, "", "");
    folder
        .xcf("extract new.xcf 1 holes.pam --no-marks")
        .is(0, "", "");
    let marked = Pam::noise(200, 150, "red green blue").with_marks(&[4]);
    assert!(folder.get("pen2.pam") == marked.without_marks().bytes());
    let holes = marked.pixels.chunks(4).map(|pixel| pixel[3]).collect();
    assert!(folder.get("holes.pam") == Pam::new(200, 150, "grey", holes).bytes());
}

/// Items, the row that the writer refuses, and its name.
const BAD_ROWS: [(&str, usize, &str); 14] = [
    ("--channel c grey.pam --layer late grey.pam", 1, "late"),
    ("--layer a grey.pam --mask small grey1.pam", 1, "small"),
    ("--layer a grey.pam --channel small grey1.pam", 1, "small"),
    (
        "--base grey --layer a grey.pam --layer coloured rgb.pam",
        1,
        "coloured",
    ),
    ("--base rgb --layer paper grey.pam", 0, "paper"),
    (
        "--layer a grey.pam --active --layer second grey.pam --active",
        1,
        "second",
    ),
    (
        "--channel a grey.pam --active --channel second grey.pam --active",
        1,
        "second",
    ),
    (
        "--channel a grey.pam --selection --channel second grey.pam --selection",
        1,
        "second",
    ),
    ("--layer solid grey.pam --opacity 256", 0, "solid"),
    ("--layer solid grey.pam --mode 22", 0, "solid"),
    ("--layer chosen grey.pam --selection", 0, "chosen"),
    ("--channel moved grey.pam --offset 1,2", 0, "moved"),
    ("--channel mixed grey.pam --mode 1", 0, "mixed"),
    ("--mask alone grey.pam", 0, "alone"),
];

#[test]
fn the_writers_refusals_are_told_with_their_item() {
    let folder = Folder::with("grey.pam", &Pam::flat(2, 2, "grey", 0).bytes());
    folder.put("grey1.pam", &Pam::flat(1, 2, "grey", 0).bytes());
    folder.put("rgb.pam", &Pam::flat(2, 2, "red green blue", 0).bytes());
    for (items, row, name) in BAD_ROWS {
        let packed = folder.xcf(&format!("pack out.xcf {items}"));
        let refusal = format!("refused 17 at {row}: a row cannot be written as it is given");
        packed.fails(1, &[&format!("xcf: out.xcf: {refusal}"), name]);
    }
    for (canvas, place) in [("0x2", 14), ("2x0", 18), ("16385x2", 14), ("2x16385", 18)] {
        let packed = folder.xcf(&format!(
            "pack out.xcf --canvas {canvas} --layer a grey.pam"
        ));
        let said =
            format!("refused 4 at {place}: a width or height is outside the range 1 to 16,384");
        packed.is(1, "", &format!("xcf: out.xcf: {said}\n"));
    }
    assert_eq!(folder.names(), ["grey.pam", "grey1.pam", "rgb.pam"]);
}

/// The mask that is one too many is the bad row, not the one before it.
#[test]
fn a_second_mask_is_refused() {
    let folder = Folder::with("p.pam", &Pam::flat(1, 1, "grey", 0).bytes());
    let packed = folder.xcf("pack o.xcf --layer a p.pam --mask first p.pam --mask second p.pam");
    packed.fails(1, &["xcf: o.xcf: refused 17 at 2: ", "\"second\""]);
}

#[test]
fn the_limits_of_a_file_are_the_writers() {
    let folder = Folder::with("p.pam", &Pam::flat(1, 1, "grey", 0).bytes());
    for (item, most) in [(" --layer a p.pam", 48), (" --channel a p.pam", 32)] {
        let pack = |count| folder.xcf(&format!("pack --force o.xcf{}", item.repeat(count)));
        pack(most).is(0, "", "");
        assert_eq!(folder.listing("o.xcf").rows.len(), most);
        pack(most + 1).fails(1, &[&format!("refused 17 at {most}: ")]);
    }
    for (length, status) in [(1024, 0), (1025, 1)] {
        let name = "n".repeat(length);
        let packed = folder.xcf(&format!("pack --force o.xcf --layer {name} p.pam"));
        assert_eq!(packed.status, status, "{packed:?}");
    }
}

/// A file of every kind of row, packed from noise.
fn pack_all(folder: &Folder, file: &str, end: &str) {
    let packed = folder.xcf(&format!(
        "pack {file} --canvas 200x150 --layer paper 0{end} --opacity 100 \
         --layer pen 1{end} --offset -30,12 --mode 21 --active --mask shape 2{end} --visible \
         --layer ink 3{end} --hidden --mask off 4{end} --unapplied --opacity 3 \
         --channel chosen 5{end} --selection --channel suspect 6{end} --visible --active"
    ));
    packed.is(0, "", "");
}

#[test]
fn what_is_extracted_packs_to_the_same_bytes() {
    let rows = [
        Pam::noise(200, 150, "red green blue"),
        Pam::noise(65, 129, "red green blue alpha"),
        Pam::flat(65, 129, "grey", 255),
        Pam::flat(1, 64, "red green blue alpha", 7),
        Pam::noise(1, 64, "grey"),
        Pam::noise(200, 150, "grey"),
        Pam::flat(200, 150, "grey", 0),
    ];
    let folder = Folder::new();
    for (row, pixels) in rows.iter().enumerate() {
        folder.put(format!("{row}.pam"), &pixels.bytes());
    }
    pack_all(&folder, "first.xcf", ".pam");
    for (row, pixels) in rows.iter().enumerate() {
        folder
            .xcf(&format!("extract first.xcf {row} {row}.marks.pam"))
            .is(0, "", "");
        folder
            .xcf(&format!(
                "extract first.xcf {row} {row}.bare.pam --no-marks"
            ))
            .is(0, "", "");
        assert!(
            folder.get(format!("{row}.bare.pam")) == pixels.bytes(),
            "row {row}"
        );
    }
    for end in [".marks.pam", ".bare.pam"] {
        pack_all(&folder, &format!("again{end}.xcf"), end);
        assert!(
            folder.get(format!("again{end}.xcf")) == folder.get("first.xcf"),
            "{end}"
        );
    }
}

#[test]
fn a_file_that_is_there_is_replaced_only_by_force() {
    let folder = Folder::with("p.pam", &Pam::flat(1, 1, "grey", 255).bytes());
    folder.put("o.xcf", b"kept");
    let words = "o.xcf --channel s p.pam --visible";
    folder
        .xcf(&format!("pack {words}"))
        .fails(2, &["xcf: o.xcf: ", "--force"]);
    assert_eq!(folder.get("o.xcf"), b"kept");
    // What is refused replaces nothing.
    let refused = folder.xcf("pack --force o.xcf --canvas 0x1 --channel s p.pam");
    assert_eq!((refused.status, folder.get("o.xcf")), (1, b"kept".to_vec()));
    folder.xcf(&format!("pack {words} --force")).is(0, "", "");
    assert_eq!(folder.get("o.xcf"), example());
    assert_eq!(folder.names(), ["o.xcf", "p.pam"]);
}

/// The words behind an item are its name and its file, whatever they are.
#[test]
fn an_item_may_be_named_like_an_option() {
    let folder = Folder::with("p.pam", &Pam::flat(1, 1, "grey", 255).bytes());
    folder
        .xcf("pack o.xcf --layer --help p.pam --mask --layer p.pam")
        .is(0, "", "");
    let shown = folder.xcf("show o.xcf");
    assert!(shown.text().contains("\"--help\"") && shown.text().contains("\"--layer\""));
    folder
        .run(["pack", "", "--layer", "l", "p.pam"])
        .is_usage("pack");
}

/// What is said of a mask and is a layer's is not passed over in silence.
#[test]
fn a_mask_has_no_offset_or_mode_of_its_own() {
    let folder = Folder::with("p.pam", &Pam::flat(1, 1, "grey", 255).bytes());
    for said in ["--offset 1,2", "--mode 1"] {
        let packed = folder.xcf(&format!("pack o.xcf --layer a p.pam --mask m p.pam {said}"));
        assert_ne!(packed.status, 0, "{said}");
        assert_eq!(folder.names(), ["p.pam"], "{said}");
    }
}

#[test]
fn wrong_words_are_wrong_usage() {
    let folder = Folder::with("p.pam", &Pam::flat(1, 1, "grey", 255).bytes());
    for words in [
        "",
        "o.xcf",
        "o.xcf --layer",
        "o.xcf --layer a",
        "o.xcf --layer a p.pam stray",
        "o.xcf --nonsense --layer a p.pam",
        "o.xcf --opacity 1 --layer a p.pam",
        "o.xcf --layer a p.pam --opacity",
        "o.xcf --layer a p.pam --opacity much",
        "o.xcf --layer a p.pam --opacity -1",
        "o.xcf --layer a p.pam --offset 1",
        "o.xcf --layer a p.pam --offset 1,2,3",
        "o.xcf --layer a p.pam --offset 2147483648,0",
        "o.xcf --layer a p.pam --mode multiply",
        "o.xcf --layer a p.pam --unapplied",
        "o.xcf --channel a p.pam --unapplied",
        "o.xcf --layer a p.pam --canvas 10",
        "o.xcf --layer a p.pam --canvas 10x",
        "o.xcf --layer a p.pam --canvas -1x1",
        "o.xcf --layer a p.pam --base blue",
        "o.xcf --layer a p.pam --base",
        "--layer a p.pam",
    ] {
        folder.xcf(&format!("pack {words}")).is_usage("pack");
        assert_eq!(folder.names(), ["p.pam"], "{words}");
    }
}
