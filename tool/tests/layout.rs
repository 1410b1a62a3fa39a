//! The answers lie in memory as the C header says: a C program made of their
//! layouts compiles.

use std::fs;
use std::path::Path;
use std::process::Command;

use xcf_tool::library::{
    FILE_LIMIT, LAYOUTS, Layout, ROW_LENGTH, TABLE_LENGTH, TEXT_LENGTH, TILE_SIDE,
};

/// Claims of a type, each a line of C.
fn claims(c: &str, layout: &Layout) -> String {
    let size = format!("_Static_assert(sizeof({c}) == {}, \"\");\n", layout.size);
    let field = |(name, offset): &(&str, usize)| {
        format!(
            "_Static_assert(offsetof({c}, {name}) == {offset}, \"\");\n\
             _Static_assert(sizeof((({c} *)0)->{name}) == 8, \"\");\n"
        )
    };
    size + &layout.fields.iter().map(field).collect::<String>()
}

fn program() -> String {
    let mut text = "#include \"xcf.h\"\n".to_string();
    for layout in LAYOUTS {
        text.extend(layout.types.iter().map(|c| claims(c, layout)));
    }
    for (name, value) in [
        ("XCF_FILE_LIMIT", FILE_LIMIT),
        ("XCF_TABLE_LENGTH", TABLE_LENGTH),
        ("XCF_ROW_LENGTH", ROW_LENGTH),
        ("XCF_TEXT_LENGTH", TEXT_LENGTH),
        ("XCF_TILE_SIDE", TILE_SIDE as usize),
    ] {
        text += &format!("_Static_assert({name} == {value}, \"\");\n");
    }
    text
}

/// What the compiler says of a program.
fn compile(name: &str, text: &str) -> Result<(), String> {
    let source = Path::new(env!("CARGO_TARGET_TMPDIR")).join(name);
    fs::write(&source, text).expect("the folder for tests can be written");
    let include = Path::new(env!("CARGO_MANIFEST_DIR")).join("../include");
    let output = Command::new("gcc")
        .args([
            "-std=c11",
            "-Wall",
            "-Wextra",
            "-Werror",
            "-fsyntax-only",
            "-I",
        ])
        .args([&include, &source])
        .output()
        .expect("gcc runs");
    match output.status.success() {
        true => Ok(()),
        false => Err(String::from_utf8_lossy(&output.stderr).into_owned()),
    }
}

#[test]
fn every_answer_has_the_layout_of_the_header() {
    let program = program();
    assert!(program.lines().count() > 50, "{program}");
    compile("layout.c", &program).unwrap();
}

#[test]
fn another_layout_is_refused() {
    let program = program();
    for (claim, wrong) in [
        (
            "xcf_list_answer, refused) == 16",
            "xcf_list_answer, refused) == 8",
        ),
        (
            "sizeof(xcf_read_answer) == 72",
            "sizeof(xcf_read_answer) == 64",
        ),
        (
            "xcf_read_answer, pointer_size) == 64",
            "xcf_read_answer, pointer_size) == 56",
        ),
        ("XCF_TEXT_LENGTH == 65536", "XCF_TEXT_LENGTH == 65535"),
    ] {
        assert!(program.contains(claim), "{claim}");
        let refused = compile("wrong_layout.c", &program.replace(claim, wrong));
        assert!(refused.is_err(), "{wrong}");
    }
}
