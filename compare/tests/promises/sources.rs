//! What the sources say: edits, definitions, numbers, theorems and names.

use std::collections::{BTreeMap, BTreeSet};
use std::fs;
use std::path::{Path, PathBuf};

use xcf_compare::folder;

/// A definition of a crate's `specs/`: its text without comments, a blank
/// between words.
struct Definition {
    file: String,
    name: String,
    text: String,
}

impl Definition {
    /// What stands between its name's colon and its first clause.
    fn signature(&self) -> &str {
        let (_, rest) = self.text.split_once(" : ").expect("a type");
        let end = rest.find(&format!(" {} ", self.name));
        &rest[..end.unwrap_or_else(|| panic!("{}: {} has no clause", self.file, self.name))]
    }

    /// It gives back no number, whatever it names: a statement, which is a type,
    /// or a list of numbers or examples.
    fn is_exempt(&self) -> bool {
        let mut head = self.text.split(' ').take_while(|word| *word != self.name);
        if head.any(|word| word == "record" || word == "data") {
            return true;
        }
        let signature = self.signature();
        let result = signature.rsplit(" → ").next().expect("a result");
        let is_list = !signature.contains('→') && signature.starts_with("List ");
        is_list || result.starts_with("Type ")
    }

    /// The numbers that it gives, by name. An answer whose number and place are
    /// both 0 is accepted, whether it says so by name or in digits.
    fn gives(&self) -> BTreeSet<String> {
        let is_named = |word: &&str| word.starts_with("Refusal.") || word.starts_with("Mark.");
        let mut names: BTreeSet<String> = tokens(&self.text)
            .filter(is_named)
            .map(str::to_string)
            .collect();
        if self.text.contains("number = 0; place = 0") {
            names.insert("Refusal.accepted".to_string());
        }
        names
    }
}

/// The words of a text, names with dots kept whole.
fn tokens(text: &str) -> impl Iterator<Item = &str> {
    text.split(|c: char| c.is_whitespace() || "(){}[],;:=λ".contains(c))
        .map(|word| word.trim_matches('.'))
        .filter(|word| !word.is_empty())
}

/// The files below a folder, in order, but for what rt keeps in folders called
/// out.
fn files(folder: &Path) -> Vec<PathBuf> {
    let Ok(entries) = fs::read_dir(folder) else {
        return Vec::new();
    };
    let mut paths: Vec<PathBuf> = entries
        .map(|entry| entry.expect("an entry").path())
        .collect();
    paths.sort();
    paths.retain(|path| !path.ends_with("out"));
    let below = |path: PathBuf| {
        if path.is_dir() {
            files(&path)
        } else {
            vec![path]
        }
    };
    paths.into_iter().flat_map(below).collect()
}

/// The crates' sources that end so, each by its path from the folder of crates.
fn sources(ending: &str) -> Vec<(String, String)> {
    let crates = folder::of_crate("");
    let mut found = Vec::new();
    for path in files(&crates) {
        let name = path.strip_prefix(&crates).expect("a crate's file");
        let name = name.to_str().expect("a name in UTF-8").to_string();
        if name.ends_with(ending) {
            found.push((name, fs::read_to_string(&path).expect("a source")));
        }
    }
    found
}

/// The name that a line declares, where it begins a definition.
fn declared(line: &str) -> Option<&str> {
    let mut words = line.split(' ').peekable();
    let is_modifier =
        |word: &&str| ["abbrev", "unfoldable", "pub", "record", "data"].contains(word);
    words.peek().filter(|word| is_modifier(word))?;
    words
        .find(|word| !is_modifier(word))
        .filter(|name| *name != "mod")
}

/// The definitions of a file.
fn definitions_in(file: &str, source: &str) -> Vec<Definition> {
    let mut found: Vec<Definition> = Vec::new();
    for line in source.lines() {
        let line = code(line);
        if let Some(name) = declared(line) {
            let (file, name) = (file.to_string(), name.to_string());
            found.push(Definition {
                file,
                name,
                text: String::new(),
            });
        }
        let Some(definition) = found.last_mut() else {
            continue;
        };
        for word in line.split_whitespace() {
            definition.text += word;
            definition.text.push(' ');
        }
    }
    found
}

/// All definitions of the crates' `specs/`.
fn definitions() -> Vec<Definition> {
    let mut all = Vec::new();
    for (file, source) in sources(".antt") {
        if file.split('/').nth(1) != Some("specs") {
            continue;
        }
        let is_opened = ["Refusal", "Mark"].map(|page| source.contains(&format!(".specs.{page}.{{")));
        assert_eq!(
            is_opened, [false; 2],
            "{file} has numbers without their page's name"
        );
        all.extend(definitions_in(&file, &source));
    }
    assert!(all.len() > 400, "only {} definitions", all.len());
    all
}

/// The numbers given back and the marks: name to digits.
pub fn numbers() -> BTreeMap<String, String> {
    let mut numbers = BTreeMap::new();
    for definition in definitions() {
        let page = match definition.file.as_str() {
            "xcf_numbers/specs/Refusal.antt" => "Refusal",
            "xcf_numbers/specs/Mark.antt" => "Mark",
            _ => continue,
        };
        let digits = definition
            .text
            .trim_end()
            .rsplit(' ')
            .next()
            .expect("a number");
        numbers.insert(format!("{page}.{}", definition.name), digits.to_string());
    }
    numbers
}

/// Name, file and definition of each number that a definition gives.
pub fn given() -> BTreeSet<(String, String, String)> {
    let mut all = BTreeSet::new();
    for definition in definitions()
        .iter()
        .filter(|definition| !definition.is_exempt())
    {
        for name in definition.gives() {
            all.insert((name, definition.file.clone(), definition.name.clone()));
        }
    }
    all
}

/// The edits that the gate tries, each with its crate.
pub fn edits() -> BTreeSet<(String, String)> {
    let mut edits = BTreeSet::new();
    for (file, _) in sources(".edit") {
        let [of_crate, "must-fail", name] = file.split('/').collect::<Vec<_>>()[..] else {
            panic!("{file}: not in a folder of edits");
        };
        let name = name.strip_suffix(".edit").expect("an edit");
        edits.insert((of_crate.to_string(), name.to_string()));
    }
    edits
}

/// The theorems that are proved.
pub fn theorems() -> BTreeSet<String> {
    let page = folder::of_crate("xcf_theorems/proofs/Theorems.antt");
    let source = fs::read_to_string(page).expect("the theorems' proofs");
    let names = source.lines().filter_map(|line| {
        let (name, _) = line.strip_prefix("pub ")?.split_once(" : ")?;
        Some(name.to_string())
    });
    names.collect()
}

/// A line without its comment.
fn code(line: &str) -> &str {
    let comment = line.find("-- ").or_else(|| line.find("//"));
    &line[..comment.unwrap_or(line.len())]
}

/// The names in a source's code.
fn names(source: &str) -> BTreeSet<String> {
    let tokens = source.lines().flat_map(|line| tokens(code(line)));
    let parts = tokens.flat_map(|token| token.split(['.', '&', '|', '<', '>', '!', '·']));
    parts.map(str::to_string).collect()
}

/// All names in the sources' code, and those of crates and edits.
pub fn words() -> BTreeSet<String> {
    let mut words = BTreeSet::new();
    for (of_crate, edit) in edits() {
        words.extend([of_crate, edit]);
    }
    for (file, source) in sources(".antt").into_iter().chain(sources(".rt")) {
        words.insert(file.split('/').next().expect("a crate").to_string());
        words.extend(names(&source));
    }
    words
}

/// The folders that a quoted path may start from: the repository's root, that of
/// crates, or a crate's own.
fn folders(of_crate: &str) -> [PathBuf; 3] {
    let crates = folder::of_crate("");
    [crates.join(".."), crates.join(of_crate), crates]
}

/// A quoted path leads somewhere.
pub fn exists(of_crate: &str, path: &str) -> bool {
    folders(of_crate)
        .iter()
        .any(|folder| folder.join(path).exists())
}

/// The names in the code of a quoted file.
pub fn words_in(of_crate: &str, path: &str) -> BTreeSet<String> {
    let found = folders(of_crate).map(|folder| fs::read_to_string(folder.join(path)));
    let source = found.into_iter().find_map(Result::ok);
    let source = source.unwrap_or_else(|| panic!("{path} under {of_crate}"));
    names(&source)
}
