//! What stands on the page of promises: its tables, and what it quotes.

use std::fs;
use std::path::Path;

/// A table, by the crate that the heading above it names.
pub struct Table {
    pub of_crate: String,
    pub columns: Vec<String>,
    pub rows: Vec<Vec<String>>,
}

impl Table {
    pub fn ends_in(&self, column: &str) -> bool {
        self.columns.last().is_some_and(|last| last == column)
    }
}

/// What stands between backticks.
pub fn quoted(text: &str) -> Vec<&str> {
    text.split('`').skip(1).step_by(2).collect()
}

fn text() -> String {
    let page = Path::new(env!("CARGO_MANIFEST_DIR")).join("../docs/PROMISES.md");
    fs::read_to_string(page).expect("the page of promises")
}

/// Each line with the crate that the heading above it names, or nothing.
fn lines() -> Vec<(String, String)> {
    let mut of_crate = String::new();
    let mut lines = Vec::new();
    for line in text().lines() {
        if let Some(title) = line.strip_prefix("## ") {
            of_crate = quoted(title).first().copied().unwrap_or("").to_string();
        }
        lines.push((of_crate.clone(), line.to_string()));
    }
    lines
}

/// The cells of a table's line.
fn cells(line: &str) -> Option<Vec<String>> {
    let row = line.strip_prefix("| ")?.strip_suffix(" |")?;
    Some(row.split(" | ").map(str::to_string).collect())
}

/// The tables: a line of cells, a line of dashes, and the rows.
pub fn tables() -> Vec<Table> {
    let mut tables: Vec<Table> = Vec::new();
    let mut is_inside = false;
    for (of_crate, line) in lines() {
        let Some(cells) = cells(&line) else {
            is_inside &= line.starts_with('|');
            continue;
        };
        if is_inside {
            let table = tables.last_mut().expect("the table begun");
            assert_eq!(cells.len(), table.columns.len(), "{line}");
            table.rows.push(cells);
        } else {
            is_inside = true;
            tables.push(Table {
                of_crate,
                columns: cells,
                rows: Vec::new(),
            });
        }
    }
    tables
}

/// The only table that has this column and ends in that one.
pub fn table(column: &str, last: &str) -> Table {
    let is_wanted =
        |table: &Table| table.ends_in(last) && table.columns.iter().any(|name| name == column);
    let mut found: Vec<Table> = tables().into_iter().filter(is_wanted).collect();
    assert_eq!(found.len(), 1, "tables with {column} and {last}");
    found.remove(0)
}

/// All that is quoted, with the crate that the heading above it names.
pub fn quotations() -> Vec<(String, String)> {
    let mut all = Vec::new();
    for (of_crate, line) in lines() {
        for text in quoted(&line) {
            all.push((of_crate.clone(), text.to_string()));
        }
    }
    all
}

/// Crate, name and file, wherever a name stands in front of its file in brackets,
/// or behind its file and a colon.
pub fn beside_files() -> Vec<(String, String, String)> {
    let mut all = Vec::new();
    for (of_crate, line) in lines() {
        let parts: Vec<&str> = line.split('`').collect();
        for at in (1..parts.len().saturating_sub(3)).step_by(2) {
            let (left, between, right) = (parts[at], parts[at + 1], parts[at + 2]);
            let (name, file) = match between {
                " (" => (left, right),
                ": " => (right, left),
                _ => continue,
            };
            if file.ends_with(".antt") {
                all.push((of_crate.clone(), name.to_string(), file.to_string()));
            }
        }
    }
    all
}
