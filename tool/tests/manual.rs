//! The man page docs/xcf.1, held to the help texts and the refusals.

mod common;

use std::process::Command;

use common::folder::answer;
use common::not_here;
use common::text::{narrow_lines, options};
use xcf_tool::help;
use xcf_tool::refusal::Refusal;

const PAGE: &str = concat!(env!("CARGO_MANIFEST_DIR"), "/../docs/xcf.1");

/// The page as it is read, with one space between words and a line for each
/// paragraph; none where there is no `man` here.
fn page() -> Option<String> {
    let mut man = Command::new("man");
    man.args(["--warnings", "--nh", "--nj", "-l", PAGE]);
    man.env("MANWIDTH", "1000").env("LC_ALL", "C");
    if man.output().is_err() {
        not_here("man is not on this machine");
        return None;
    }
    let shown = answer(&mut man);
    assert_eq!((shown.status, shown.stderr.as_str()), (0, ""));
    Some(narrow_lines(shown.text()).join("\n"))
}

/// The part of the page from a heading to the next.
fn section<'a>(page: &'a str, heading: &str, next: &str) -> &'a str {
    let (_, rest) = page
        .split_once(&format!("\n{heading}\n"))
        .expect("the heading");
    rest.split_once(&format!("\n{next}\n"))
        .expect("the next heading")
        .0
}

#[test]
fn the_page_names_every_command_and_option() {
    let Some(page) = page() else { return };
    for (heading, next, text) in [
        ("LIST", "SHOW", help::LIST),
        ("SHOW", "CHECK", help::SHOW),
        ("CHECK", "EXTRACT", help::CHECK),
        ("EXTRACT", "PACK", help::EXTRACT),
        ("PACK", "PAM FILES", help::PACK),
    ] {
        let section = section(&page, heading, next);
        assert!(section.contains(&format!("xcf {} ", heading.to_lowercase())));
        for option in options(text) {
            assert!(section.contains(option), "{heading}: {option}");
        }
    }
}

#[test]
fn the_page_has_the_usage_of_every_command() {
    let Some(page) = page() else { return };
    let synopsis = section(&page, "SYNOPSIS", "DESCRIPTION");
    for text in [
        help::LIST,
        help::SHOW,
        help::CHECK,
        help::EXTRACT,
        help::PACK,
    ] {
        let usage = text
            .lines()
            .next()
            .and_then(|line| line.strip_prefix("usage: "));
        let usage = usage.expect("the first line is the usage");
        assert!(synopsis.lines().any(|line| line == usage), "{usage}");
    }
}

#[test]
fn the_page_has_the_sentence_of_every_number() {
    let Some(page) = page() else { return };
    let numbers = section(&page, "NUMBERS", "MESSAGES");
    for number in (1..=18).chain([25]) {
        let refusal = Refusal { number, place: 0 }.to_string();
        let (_, sentence) = refusal.split_once(": ").expect("a colon");
        let line = format!("{number} {sentence}");
        assert!(numbers.lines().any(|found| found == line), "{line}");
    }
}
