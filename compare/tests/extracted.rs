//! What `xcf extract` writes, opened in other programs: every band as it is,
//! the band of marks among them.

use std::ffi::OsString;
use std::fs;
use std::path::PathBuf;

use xcf_compare::gimp::{data_folder, exported_pixels};
use xcf_compare::guard::difference;
use xcf_compare::programs::{IMAGE_MAGICK, Scratch, is_here, limited, open_in_gimp, run};
use xcf_compare::report;
use xcf_tool::command;
use xcf_tool::fault::Status;

/// A row of a file that GIMP wrote.
struct Sample {
    name: &'static str,
    row: usize,
    /// How many bands are extracted, that of marks among them.
    bands: usize,
    status: Status,
}

const SAMPLES: [Sample; 8] = [
    Sample::good("indexed", 1, 2),
    Sample::good("indexed", 0, 3),
    Sample::good("colours", 2, 4),
    Sample::good("groups", 4, 5),
    Sample::good("modes", 1, 5),
    Sample::good("modern", 2, 4),
    Sample::good("modern-grey", 0, 3),
    Sample {
        name: "chart-damaged",
        row: 0,
        bands: 3,
        status: Status::Refused,
    },
];

impl Sample {
    const fn good(name: &'static str, row: usize, bands: usize) -> Self {
        Sample {
            name,
            row,
            bands,
            status: Status::Fine,
        }
    }

    fn title(&self) -> String {
        format!("{}-{}", self.name, self.row)
    }

    /// Extracts the row; gives the path and the samples.
    fn extract(&self, scratch: &Scratch) -> (PathBuf, Vec<u8>) {
        let file = data_folder().join(format!("{}.xcf", self.name));
        let out = scratch.file(&self.title(), "pam");
        let words: [OsString; 4] = [
            "extract".into(),
            file.into(),
            self.row.to_string().into(),
            out.clone().into(),
        ];
        assert_eq!(command::run(words.to_vec()), self.status);
        let bytes = fs::read(&out).expect("what was extracted");
        let samples = samples_in(&bytes);
        self.assert_marks(&samples);
        (out, samples)
    }

    /// The last band has zeros where a tile is marked, and else none.
    fn assert_marks(&self, samples: &[u8]) {
        let marks = samples
            .chunks(self.bands)
            .map(|sample| sample[self.bands - 1]);
        let marked = marks.filter(|mark| *mark == 0).count();
        let expected = match self.status {
            Status::Fine => 0,
            _ => 64 * 64,
        };
        assert_eq!(marked, expected, "{}", self.title());
    }
}

/// What stands behind a PAM file's header.
fn samples_in(file: &[u8]) -> Vec<u8> {
    let end = file.windows(7).position(|part| part == b"ENDHDR\n");
    file[end.expect("a header") + 7..].to_vec()
}

#[test]
fn image_magick_opens_every_band() {
    if !is_here(IMAGE_MAGICK) {
        report("ImageMagick is not on this machine: what is extracted was not opened in it");
        return;
    }
    let scratch = Scratch::new("extracted-image-magick");
    for sample in &SAMPLES {
        let (file, samples) = sample.extract(&scratch);
        let form = ["gray:-", "graya:-", "rgb:-", "rgba:-", "cmyka:-"][sample.bands - 1];
        let opened = run(limited(IMAGE_MAGICK).arg(file).args(["-depth", "8", form])).stdout;
        assert_eq!(opened.len(), samples.len(), "{}", sample.title());
        assert_eq!(difference(&opened, &samples), None, "{}", sample.title());
    }
}

#[test]
fn netpbm_opens_every_band() {
    if !is_here("pamchannel") {
        report("netpbm is not on this machine: what is extracted was not opened in it");
        return;
    }
    let scratch = Scratch::new("extracted-netpbm");
    for sample in &SAMPLES {
        let (file, samples) = sample.extract(&scratch);
        for band in 0..sample.bands {
            let mut command = limited("pamchannel");
            command.arg("-infile").arg(&file).arg(band.to_string());
            let opened = samples_in(&run(&mut command).stdout);
            let extracted = samples.iter().skip(band).step_by(sample.bands);
            assert!(opened.iter().eq(extracted), "{}: {band}", sample.title());
        }
    }
}

/// GIMP opens no PAM, so netpbm makes PNG files of those with at most four
/// bands; these it opens.
#[test]
fn gimp_opens_every_band_as_png() {
    if !is_here("gimp") || !is_here("pamtopng") {
        report("GIMP or netpbm is not on this machine: what is extracted was not opened in GIMP");
        return;
    }
    let scratch = Scratch::new("extracted-gimp");
    let (mut files, mut expected) = (Vec::new(), Vec::new());
    for sample in SAMPLES.iter().filter(|sample| sample.bands <= 4) {
        let (file, samples) = sample.extract(&scratch);
        let png = file.with_extension("png");
        fs::write(&png, run(limited("pamtopng").arg(&file)).stdout).expect("a folder of ours");
        files.push(png);
        expected.push(samples);
    }
    open_in_gimp(&scratch, &files);
    for (file, samples) in files.iter().zip(&expected) {
        let opened = exported_pixels(&file.with_extension("0.hex"));
        assert_eq!(opened.len(), samples.len(), "{file:?}");
        assert_eq!(difference(&opened, samples), None, "{file:?}");
    }
}
