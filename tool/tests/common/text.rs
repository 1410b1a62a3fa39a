//! Texts as they are compared.

/// The words above the table of `xcf show`.
pub const COLUMNS: &str = "row kind size type opacity mode offset flags tiles marked name";

/// The line with one space between words; the lines of a map, which begin with
/// a sign for a tile, keep their indentation.
pub fn narrow(line: &str) -> String {
    let words = line.trim_start();
    let indentation = match words.starts_with(['.', '#']) {
        true => &line[..line.len() - words.len()],
        false => "",
    };
    let words: Vec<&str> = words.split_whitespace().collect();
    indentation.to_string() + &words.join(" ")
}

/// The lines of a text, each narrow.
pub fn narrow_lines(text: &str) -> Vec<String> {
    text.lines().map(narrow).collect()
}

/// Every word of a help text that is an option, as often as it is there.
pub fn options(text: &str) -> impl Iterator<Item = &str> {
    let words = text.split(|c: char| !(c.is_ascii_lowercase() || c == '-'));
    words.filter(|word| word.starts_with("--"))
}
