//! The page of promises, docs/PROMISES.md, held to the sources: to the must-fail
//! edits, to the definitions that give numbers, and to the page of theorems.

mod page;
mod sources;

use std::collections::{BTreeMap, BTreeSet};

/// What `left` has and `right` lacks.
fn lacking<T: Ord + Clone>(left: &BTreeSet<T>, right: &BTreeSet<T>) -> Vec<T> {
    left.difference(right).cloned().collect()
}

/// The page and the sources have the same: each row is true, and none is missing.
fn assert_same<T: Ord + Clone + std::fmt::Debug>(page: &BTreeSet<T>, sources: &BTreeSet<T>) {
    let untrue = lacking(page, sources);
    let missing = lacking(sources, page);
    assert!(untrue.is_empty(), "only on the page: {untrue:#?}");
    assert!(missing.is_empty(), "not on the page: {missing:#?}");
}

/// Every edit is named under its crate, and no other is; a crate that has any
/// has two.
#[test]
fn promises_name_what_is_tried() {
    let tried = sources::edits();
    let mut of_crate: BTreeMap<&str, usize> = BTreeMap::new();
    for (name, _) in &tried {
        *of_crate.entry(name).or_default() += 1;
    }
    assert!(of_crate.len() >= 20);
    let single: Vec<_> = of_crate.iter().filter(|(_, edits)| **edits < 2).collect();
    assert!(single.is_empty(), "{single:?}");

    let mut named = BTreeSet::new();
    for table in page::tables().iter().filter(|table| table.ends_in("Edit")) {
        for row in &table.rows {
            let edit = page::quoted(row.last().expect("a cell"))[0];
            let is_new = named.insert((table.of_crate.clone(), edit.to_string()));
            assert!(is_new, "{}: {edit} stands twice", table.of_crate);
        }
    }
    assert_same(&named, &tried);
}

/// A definition is listed with a number exactly where its text gives it, and
/// every number is given somewhere.
#[test]
fn numbers_are_given_where_the_page_says() {
    let numbers = sources::numbers();
    let mut listed = BTreeSet::new();
    for row in page::table("Name", "Definition").rows {
        let quoted = row.iter().map(|cell| page::quoted(cell).first().copied());
        let [_, Some(name), Some(file), Some(definition)] = quoted.collect::<Vec<_>>()[..] else {
            panic!("{row:?}");
        };
        assert_eq!(numbers.get(name), Some(&row[0]), "{row:?}");
        let gives = (name.to_string(), file.to_string(), definition.to_string());
        assert!(listed.insert(gives), "twice: {row:?}");
    }
    assert_same(&listed, &sources::given());

    let given: BTreeSet<String> = listed.into_iter().map(|(name, ..)| name).collect();
    assert_same(&given, &numbers.into_keys().collect());
}

/// Every theorem of the page of theorems is listed, and no other is.
#[test]
fn theorems_are_those_that_are_proved() {
    let mut listed = BTreeSet::new();
    for row in page::table("Theorem", "Claim").rows {
        for name in page::quoted(&row[0]) {
            assert!(listed.insert(name.to_string()), "{name} stands twice");
        }
    }
    assert_same(&listed, &sources::theorems());
}

/// A quoted path exists, and a quoted name is a name of the sources.
#[test]
fn quoted_names_are_in_the_sources() {
    let words = sources::words();
    let mut unknown = Vec::new();
    for (of_crate, quoted) in page::quotations() {
        let is_known = if quoted.contains('/') {
            sources::exists(&of_crate, &quoted)
        } else {
            let mut parts = quoted
                .split([':', '.', ' '])
                .filter(|part| !part.is_empty());
            parts.all(|part| words.contains(part))
        };
        if !is_known {
            unknown.push(format!("{quoted} (under {of_crate})"));
        }
    }
    assert!(unknown.is_empty(), "{unknown:#?}");
}

/// A definition stands in the file that is quoted beside it.
#[test]
fn quoted_definitions_stand_in_their_files() {
    let beside = page::beside_files();
    assert!(beside.len() >= 40, "only {}", beside.len());
    for (of_crate, name, file) in beside {
        let words = sources::words_in(&of_crate, &file);
        assert!(words.contains(&name), "{name} is not in {file}");
    }
}
