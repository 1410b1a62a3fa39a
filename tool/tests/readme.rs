//! What the README shows of the command is what the command gives.

mod common;

use std::path::Path;
use std::{fs, str};

use common::{Folder, XCF};

/// The README's commands, each with the lines that stand below it.
fn shown() -> Vec<(String, String)> {
    let readme = Path::new(env!("CARGO_MANIFEST_DIR")).join("../README.md");
    let text = fs::read_to_string(readme).expect("the README");
    let mut shown: Vec<(String, String)> = Vec::new();
    let mut is_shown = false;
    for line in text.lines() {
        let code = line.strip_prefix("    ");
        match (code, code.and_then(|code| code.strip_prefix("$ "))) {
            (_, Some(command)) => shown.push((command.to_string(), String::new())),
            (Some(code), None) if is_shown => {
                let (_, output) = shown.last_mut().expect("a command");
                output.extend([code, "\n"]);
            }
            _ => {}
        }
        is_shown = code.is_some() && (is_shown || line.starts_with("    $ "));
    }
    shown
}

/// The commands are run one after the other in a folder that has the samples.
#[test]
fn the_readme_shows_what_the_command_gives() {
    let shown = shown();
    let of_ours = shown
        .iter()
        .filter(|(command, _)| command.starts_with("./xcf "));
    assert!(of_ours.count() >= 3, "{shown:?}");
    let folder = Folder::new();
    let data = Path::new(env!("CARGO_MANIFEST_DIR")).join("../compare");
    std::os::unix::fs::symlink(data, folder.path("compare")).expect("a link");
    std::os::unix::fs::symlink(XCF, folder.path("xcf")).expect("a link");
    for (command, expected) in shown {
        let run = folder.program("bash").args(["-c", &command]).output();
        let run = run.expect("a command that can be run");
        let given = [run.stdout, run.stderr].concat();
        assert_eq!(str::from_utf8(&given), Ok(&expected[..]), "{command}");
    }
}
