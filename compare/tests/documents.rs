//! The documents held to the repository: what they quote exists, and so does
//! each section of the rules that is cited.

use std::collections::BTreeSet;
use std::fs;
use std::path::{Path, PathBuf};

const DOCUMENTS: [&str; 7] = [
    "README.md",
    "docs/ARCHITECTURE.md",
    "docs/DECISIONS.md",
    "docs/PERFORMANCE.md",
    "docs/PROMISES.md",
    "docs/RULES.md",
    "docs/TESTING.md",
];

/// The repository's parts whose comments may cite the rules.
const PARTS: [&str; 7] = [
    "bench", "compare", "crates", "docs", "include", "plain", "tool",
];

fn root() -> PathBuf {
    Path::new(env!("CARGO_MANIFEST_DIR")).join("..")
}

fn read(path: &str) -> String {
    fs::read_to_string(root().join(path)).expect("a document")
}

/// All files of text below a folder, but for what rt keeps in folders called out.
fn texts(folder: &Path) -> Vec<String> {
    let mut texts_found = Vec::new();
    for entry in fs::read_dir(folder).expect("a folder") {
        let path = entry.expect("an entry").path();
        match path.is_dir() {
            true if path.ends_with("out") => {}
            true => texts_found.extend(texts(&path)),
            false => texts_found.extend(fs::read_to_string(&path).ok()),
        }
    }
    texts_found
}

/// What stands between backticks, outside of blocks of code.
fn quoted(text: &str) -> Vec<&str> {
    let lines = text.lines().filter(|line| !line.starts_with("    "));
    lines
        .flat_map(|line| line.split('`').skip(1).step_by(2))
        .collect()
}

/// Paths are whole, or begin at a crate; a pattern, a command, and what has NAME
/// for a crate's name is no path.
fn is_path(quoted: &str) -> bool {
    let is_plain = quoted
        .chars()
        .all(|c| c.is_alphanumeric() || "/._-".contains(c));
    let starts = [
        "xcf_", "bench/", "compare/", "crates/", "docs/", "include/", "plain/", "tool/", ".ci/",
    ];
    let is_whole = is_plain && quoted.contains('/') && !quoted.contains("NAME");
    is_whole && starts.iter().any(|start| quoted.starts_with(start))
}

#[test]
fn quoted_paths_exist() {
    let (mut found, mut missing) = (0, Vec::new());
    for document in DOCUMENTS {
        let text = read(document);
        for path in quoted(&text).into_iter().filter(|quoted| is_path(quoted)) {
            let exists = [root(), root().join("crates")]
                .iter()
                .any(|folder| folder.join(path).exists());
            found += 1;
            if !exists {
                missing.push(format!("{document}: {path}"));
            }
        }
    }
    assert!(found >= 200, "only {found}");
    assert!(missing.is_empty(), "{missing:#?}");
}

/// Theorems have names of several words, and so have exported calls, refusals
/// and one function of the library.
#[test]
fn quoted_theorems_are_proved() {
    let page = read("crates/xcf_theorems/proofs/Theorems.antt");
    let proved: BTreeSet<&str> = page
        .lines()
        .filter_map(|line| line.strip_prefix("pub ")?.split(' ').next())
        .collect();
    let refusals = read("crates/xcf_numbers/specs/Refusal.antt");
    let is_other = |name: &str| {
        let is_refusal = refusals.contains(&format!("abbrev pub {name} :"));
        is_refusal || name.starts_with("xcf_") || name == "encode_stream"
    };
    let is_letter = |c: char| c.is_ascii_lowercase() || c.is_ascii_digit() || c == '_';
    let (mut found, mut unknown) = (0, Vec::new());
    for document in ["README.md", "docs/RULES.md"] {
        let text = read(document);
        let is_name = |name: &&str| name.chars().all(is_letter);
        for name in quoted(&text).into_iter().filter(is_name) {
            if name.contains('_') && !is_other(name) {
                found += 1;
                unknown.extend((!proved.contains(name)).then(|| format!("{document}: {name}")));
            }
        }
    }
    assert!(found >= 40, "only {found}");
    assert!(unknown.is_empty(), "{unknown:#?}");
}

/// What is cited as `RULES, "Tiles"` is a section there.
#[test]
fn cited_sections_exist() {
    let rules = read("docs/RULES.md");
    let sections: BTreeSet<&str> = rules
        .lines()
        .filter(|line| line.starts_with('#'))
        .map(|line| line.trim_start_matches(['#', ' ']))
        .collect();
    let (mut found, mut unknown) = (0, Vec::new());
    for text in PARTS.iter().flat_map(|part| texts(&root().join(part))) {
        for citation in text.split("RULES, \"").skip(1) {
            let section = citation.split('"').next().expect("a name").to_string();
            found += 1;
            if !sections.contains(section.as_str()) {
                unknown.push(section);
            }
        }
    }
    assert!(found >= 20, "only {found}");
    assert!(unknown.is_empty(), "{unknown:#?}");
}

/// A document is cited by its name here, none by a number that it has elsewhere.
#[test]
fn no_document_is_cited_by_number() {
    let numbered = ["document", "demand"].map(|word| format!("{word} "));
    let is_cited = |text: &str, word: &str| {
        let mut behind = text.split(word).skip(1);
        behind.any(|rest| rest.starts_with(|c: char| c.is_ascii_digit()))
    };
    let texts = PARTS.iter().flat_map(|part| texts(&root().join(part)));
    for text in texts.chain([read("README.md"), read("CHANGELOG.md")]) {
        let text = text.to_lowercase();
        assert!(!numbered.iter().any(|word| is_cited(&text, word)));
    }
}
