//! `teplovist`: looks at images and changes them, from the command line. PROGRAM.md has its commands, its JSON and its
//! exit statuses; `teplovist --help` shows examples.

use std::ffi::OsString;
use std::process::ExitCode;

mod program;

fn main() -> ExitCode {
    let arguments: Vec<OsString> = std::env::args_os().skip(1).collect();
    program::run(&arguments).into()
}
