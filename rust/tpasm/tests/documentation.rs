//! What docs/assembly.md shows is what is printed.

use tpasm::{assemble, job, list_file, show, Fault};

const PAGE: &str = include_str!("../../../docs/assembly.md");

/// The page has these lines, as code.
#[track_caller]
fn has(text: &str) {
    let line = |line: &str| format!("    {}\n", line).replace("    \n", "\n");
    let code: String = text.lines().map(line).collect();
    assert!(PAGE.contains(&code), "{}", code);
}

#[test]
fn the_error() {
    let sum = include_str!("../../../examples/sum/sum.tpal");
    let source = sum.replacen("if-jump left, exit", "if-jump left, exti", 1);
    let errors = assemble(source.as_bytes()).unwrap_err();
    has(&show("sum.tpal", source.as_bytes(), &errors));
}

#[test]
fn a_version_that_is_too_low() {
    let source = b"version 1\nmain:\n  push main\n  halt\n";
    let errors = assemble(source).unwrap_err();
    has(&show("card.tpal", source, &errors));
}

#[test]
fn the_warning() {
    let source = include_bytes!("../../../examples/two-faults/two-faults.tpal");
    let warnings = assemble(source).unwrap().warnings;
    has(&show("two-faults.tpal", source, &warnings));
}

#[test]
fn the_listing() {
    let assembly = assemble(include_bytes!("../../../examples/f/f.tpal")).unwrap();
    let job = job(&assembly.image, &assembly.settings);
    let listing = list_file(&job, true).unwrap();
    let first: Vec<&str> = listing.lines().take(10).collect();
    has(&first.join("\n"));
}

/// A fault is said in the same words from C.
#[test]
fn the_words_of_faults() {
    let header = include_str!("../../../c/tpal.h");
    for number in model::fault::ALL {
        let said = Fault(number).to_string();
        let words = said.strip_prefix(&format!("fault {}: ", number)).unwrap();
        assert!(
            header.contains(&format!("return \"{}\";", words)),
            "{}",
            said
        );
    }
}
