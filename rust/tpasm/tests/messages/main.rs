//! Messages whole: place, text, the source's line, carets, hint; and what follows an error.

mod habits;
mod lines;
mod names;
mod recovery;
mod warnings;

use tpasm::{assemble, show};

/// What is printed about a source, which is called `x`.
fn shown(source: &[u8]) -> String {
    let messages = match assemble(source) {
        Ok(assembly) => assembly.warnings,
        Err(errors) => errors,
    };
    show("x", source, &messages)
}

#[track_caller]
fn shows(source: &str, expected: &str) {
    assert_eq!(shown(source.as_bytes()), expected);
}

/// A source in which the names `total`, `jr` and `loop` mean something and one instruction is wrong:
/// `about` is what is said of it from the column on, without the line.
#[track_caller]
fn instruction_shows(instruction: &str, about: &str) {
    let head = "reg total = r0, jr = r1";
    let source = format!("{}\nloop:\n  {}\n  jump loop\n", head, instruction);
    let (place, rest) = about.split_once('\n').unwrap();
    let expected = format!("x:3:{}\n    3 |   {}\n{}", place, instruction, rest);
    shows(&source, &expected);
}
