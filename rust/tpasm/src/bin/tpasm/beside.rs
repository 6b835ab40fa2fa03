//! The commands that need the engine: they are a program of their own, which stands beside this one,
//! so that the assembler is built without the engine's archive.

use std::env;
use std::ffi::OsString;
use std::process::{exit, Command};
use tpasm::command::{at_fault, finish};

const COMMANDS: [&str; 3] = ["trace", "picture", "profile"];
const PROGRAM: &str = "tpasm-trace";

/// Whether the first argument is one of these commands.
pub fn has(first: Option<OsString>) -> bool {
    first.map_or(false, |first| COMMANDS.iter().any(|name| first == *name))
}

/// Hands the arguments over, and ends with the other program's status.
pub fn run(arguments: impl Iterator<Item = OsString>) -> ! {
    let here = env::current_exe().unwrap_or_default();
    let program = here.with_file_name(PROGRAM);
    match Command::new(&program).args(arguments).status() {
        Ok(status) => exit(status.code().unwrap_or(1)),
        Err(error) => finish(Err(at_fault(format!(
            "{}: {}; `make` at the repository's root builds it, or, with the engine's archive there, \
             `cargo build --release --offline -p trace` in rust/",
            program.display(),
            error
        )))),
    }
}
