//! The words of the command: help, version, wrong usage, and the completion of
//! words by bash.

mod common;

use std::path::Path;

use common::files::{EXAMPLE_LISTING, example};
use common::text::options;
use common::{Folder, Pam, XCF, folder, not_here};
use xcf_tool::help;

const COMMANDS: [(&str, &str); 5] = [
    ("list", help::LIST),
    ("show", help::SHOW),
    ("check", help::CHECK),
    ("extract", help::EXTRACT),
    ("pack", help::PACK),
];

#[test]
fn the_overview_is_help_when_asked_for() {
    let folder = Folder::new();
    folder.xcf("--help").is(0, help::OVERVIEW, "");
    folder.xcf("help").is(0, help::OVERVIEW, "");
    folder.xcf("").is(2, "", help::OVERVIEW);
}

#[test]
fn each_command_has_its_help() {
    let folder = Folder::new();
    for (command, text) in COMMANDS {
        folder.xcf(&format!("help {command}")).is(0, text, "");
        folder.xcf(&format!("{command} --help")).is(0, text, "");
        assert!(text.starts_with(&format!("usage: xcf {command} ")));
    }
}

#[test]
fn the_version_is_the_packages() {
    Folder::new().xcf("--version").is(0, "xcf 0.1.0\n", "");
}

#[test]
fn unknown_commands_are_wrong_usage() {
    let folder = Folder::new();
    for words in ["nonsense", "--nonsense", "help nonsense", "-x", "LIST"] {
        folder.xcf(words).fails(2, &["see xcf help"]);
    }
}

#[test]
fn too_few_too_many_and_unknown_words_are_wrong_usage() {
    let folder = Folder::with("a.xcf", &example());
    for (command, words) in [
        ("list", ""),
        ("list", "--force a.xcf"),
        ("list", "-x a.xcf"),
        ("show", ""),
        ("show", "a.xcf a.xcf"),
        ("show", "a.xcf --no-marks"),
        ("check", ""),
        ("check", "--quiet a.xcf"),
        ("extract", ""),
        ("extract", "a.xcf"),
        ("extract", "a.xcf 0"),
        ("extract", "a.xcf 0 o.pam more"),
        ("extract", "a.xcf 0 o.pam --marks"),
        ("extract", "--force=yes a.xcf 0 o.pam"),
    ] {
        folder.xcf(&format!("{command} {words}")).is_usage(command);
    }
    assert_eq!(folder.names(), ["a.xcf"]);
}

/// A word that is no option is told on one line, whatever it holds.
#[test]
fn an_unknown_option_is_printable() {
    let folder = Folder::new();
    let forged = folder.run(["check", "-a\nxcf: all fine\u{1b}[2J"]);
    let said = "there is no option -a\\nxcf: all fine\\u{1b}[2J here; see xcf help check";
    forged.is(2, "", &format!("xcf: {said}\n"));
}

#[test]
fn two_dashes_end_the_options() {
    let folder = Folder::with("--help", &example());
    folder.xcf("list -- --help").is(0, EXAMPLE_LISTING, "");
    let line = "--help: accepted, 1 row, 1 tile, none marked\n";
    folder.xcf("check -- --help").is(0, line, "");
    folder
        .xcf("extract --no-marks -- --help 0 --out")
        .is(0, "", "");
    assert_eq!(folder.names(), ["--help", "--out"]);
    folder.xcf("list --").is_usage("list");
}

/// What bash offers for the last of these words, in order. The command's
/// folder stands first in the path, since the completion asks it for rows.
fn completed(place: &Folder, words: &[&str]) -> Vec<String> {
    const SCRIPT: &str = r#"
        source "$1"; shift
        COMP_WORDS=("$@"); COMP_CWORD=$(($# - 1)); COMP_LINE="$*"; COMP_POINT=${#COMP_LINE}
        complete -p xcf > /dev/null || exit
        _xcf xcf "${COMP_WORDS[COMP_CWORD]}" "${COMP_WORDS[COMP_CWORD - 1]}"
        [ ${#COMPREPLY[@]} -eq 0 ] || printf '%s\n' "${COMPREPLY[@]}"
    "#;
    let source = concat!(env!("CARGO_MANIFEST_DIR"), "/completion/xcf.bash");
    let path = Path::new(XCF).parent().expect("the command is in a folder");
    let path = format!("{}:/usr/bin:/bin", path.display());
    let mut bash = place.program("bash");
    bash.args(["--norc", "-c", SCRIPT, "bash", source])
        .args(words)
        .env("PATH", path);
    let answer = folder::answer(&mut bash);
    assert_eq!(
        (answer.status, answer.stderr.as_str()),
        (0, ""),
        "{words:?}"
    );
    let mut offered: Vec<String> = answer.text().lines().map(str::to_string).collect();
    offered.sort();
    offered
}

/// Words, and what is offered for the last.
const OFFERED: [(&[&str], &str); 22] = [
    (
        &["xcf", ""],
        "--help --version check extract help list pack show",
    ),
    (&["xcf", "s"], "show"),
    (&["xcf", "--v"], "--version"),
    (&["xcf", "help", ""], "check extract list pack show"),
    (&["xcf", "nonsense", ""], ""),
    (&["xcf", "list", ""], "a.xcf b.xcf sub"),
    (&["xcf", "list", "a.xcf", "b"], "b.xcf"),
    (&["xcf", "list", "sub/"], "sub/c.xcf"),
    (&["xcf", "check", "-"], "--help"),
    (&["xcf", "show", "a"], "a.xcf"),
    (&["xcf", "show", "a.xcf", ""], ""),
    (&["xcf", "extract", "-"], "--force --help --no-marks"),
    (&["xcf", "extract", "--force", "b"], "b.xcf"),
    (&["xcf", "extract", "a.xcf", ""], "0 1 2"),
    (&["xcf", "extract", "--no-marks", "a.xcf", "1"], "1"),
    (&["xcf", "extract", "b.xcf", ""], ""),
    (&["xcf", "extract", "a.xcf", "0", ""], "p.pam sub"),
    (&["xcf", "pack", "o.xcf", "--layer", "a", "p"], "p.pam"),
    (
        &["xcf", "pack", "o.xcf", "--layer", "a", "p.pam", "--o"],
        "--offset --opacity",
    ),
    (&["xcf", "pack", "o.xcf", "--base", ""], "grey rgb"),
    (&["xcf", "pack", "o.xcf", "--layer", ""], ""),
    (
        &[
            "xcf",
            "pack",
            "o.xcf",
            "--layer",
            "a",
            "p.pam",
            "--opacity",
            "",
        ],
        "",
    ),
];

#[test]
fn bash_completes_the_words() {
    let place = Folder::with("p.pam", &Pam::flat(1, 1, "grey", 0).bytes());
    if place.program("bash").arg("--version").output().is_err() {
        return not_here("bash is not on this machine");
    }
    let items = "--layer l p.pam --mask m p.pam --channel c p.pam";
    place.xcf(&format!("pack a.xcf {items}")).is(0, "", "");
    place.put("b.xcf", b"not an XCF file");
    place.make_folder("sub");
    place.put("sub/c.xcf", b"");
    for (words, offered) in OFFERED {
        let awaited: Vec<&str> = offered.split_whitespace().collect();
        assert_eq!(completed(&place, words), awaited, "{words:?}");
    }
}

#[test]
fn bash_completes_every_option_of_every_command() {
    let place = Folder::new();
    for (command, text) in COMMANDS {
        let mut named: Vec<&str> = options(text).chain(["--help"]).collect();
        named.sort();
        named.dedup();
        assert_eq!(
            completed(&place, &["xcf", command, "--"]),
            named,
            "{command}"
        );
    }
}

/// A path is taken as it is typed, and is never run as a command.
#[test]
fn bash_completes_rows_of_awkward_paths() {
    let place = Folder::with("two words.xcf", &example());
    place.put("$(touch run).xcf", &example());
    for typed in [
        "two\\ words.xcf",
        "'two words.xcf'",
        "\"two words.xcf\"",
        "'$(touch run).xcf'",
    ] {
        assert_eq!(
            completed(&place, &["xcf", "extract", typed, ""]),
            ["0"],
            "{typed}"
        );
    }
    completed(&place, &["xcf", "extract", "$(touch run).xcf", ""]);
    assert_eq!(place.names(), ["$(touch run).xcf", "two words.xcf"]);
}
