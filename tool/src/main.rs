//! The command `xcf`.

use std::env;
use std::process::ExitCode;

fn main() -> ExitCode {
    xcf_tool::command::run(env::args_os().skip(1).collect()).into()
}
