//! The stored input and output of the program `xcf_vectors`.

use std::fs;

use xcf_compare::folder;
use xcf_compare::vectors::build;

/// The program's stored files are what the reference gives.
#[test]
fn stored_files_are_the_references() {
    let folder = folder::of_crate("xcf_vectors");
    let vectors = build();
    assert!(fs::read(folder.join("stdin")).unwrap() == vectors.input);
    assert!(fs::read_to_string(folder.join("stdout")).unwrap() == vectors.output);
}

/// Every outcome is there often enough to be worth running.
#[test]
fn outcomes_are_varied() {
    let output = build().output;
    let count = |start: &str| output.lines().filter(|l| l.starts_with(start)).count();
    for (start, least) in [
        ("tile 0 0 0 ", 100),
        ("tile 0 0 20 ", 50),
        ("tile 0 0 21 ", 30),
        ("tile 11 0 0 0 0 ", 10),
        ("tile 14 0 0 0 0 ", 20),
        ("write 0 0 ", 40),
        ("write 18 0 0 ", 20),
        ("write 11 0 0 ", 10),
        ("write 14 0 0 ", 10),
        ("stream 0 0 ", 40),
        ("stream 18 0 0 ", 20),
        ("stream 11 0 0 ", 1),
    ] {
        assert!(count(start) >= least, "{start}: {}", count(start));
    }
}
