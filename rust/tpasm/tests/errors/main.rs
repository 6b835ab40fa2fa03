//! Each kind of error, with its line and column.

mod annotations;
mod blocks;
mod files;
mod instructions;
mod names;
mod settings;

use tpasm::assemble;

const NO_BLOCK: &str = "expected a block, which begins with a label, found the end of the file";

/// The source has this error and no other, but for a block that is missing.
#[track_caller]
fn refused(source: &str, expected: &str) {
    let errors = assemble(source.as_bytes()).expect_err("assembled");
    let lines: Vec<String> = errors.iter().map(|error| error.to_string()).collect();
    let is_first_or_other = |(n, line): &(usize, &String)| *n == 0 || !line.ends_with(NO_BLOCK);
    let lines: Vec<&str> = lines
        .iter()
        .enumerate()
        .filter(is_first_or_other)
        .map(|(_, line)| line.as_str())
        .collect();
    assert_eq!(lines, [expected]);
}

/// The source has this error first.
#[track_caller]
fn refused_first(source: &str, expected: &str) {
    let errors = assemble(source.as_bytes()).expect_err("assembled");
    assert_eq!(errors[0].to_string(), expected);
}

/// A block of these instructions, before a halt; the first stands in line 2, column 3.
fn block(instructions: &str) -> String {
    format!("main:\n  {}\n  halt\n", instructions)
}

/// A join target with this annotation, which begins at line 1, column 7.
fn annotated(annotation: &str) -> String {
    format!("exit: {}\n  halt\ncomb:\n  join r1\n", annotation)
}
