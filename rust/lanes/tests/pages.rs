//! docs/lanes.md and docs/lanes.svg are what the program makes of the engine and of examples/ as they
//! are now, and the jobs are those whose outputs are stored.

use checks::run_program::{at_the_root, engines_text};
use lanes::{counts, examples, page, plot};
use std::fs;

const ANEW: &str = "run `make lanes`";

fn stored(path: &str) -> String {
    fs::read_to_string(at_the_root(path)).unwrap()
}

#[test]
fn the_page_is_what_the_program_makes() {
    let counts = counts::of_examples().unwrap();
    let stored = stored("docs/lanes.md");
    assert!(
        page::filled(&stored, &counts).unwrap() == stored,
        "{}",
        ANEW
    );
}

#[test]
fn the_plot_is_what_the_program_makes() {
    let counts = counts::of_examples().unwrap();
    assert!(
        plot::plot(&counts).unwrap() == stored("docs/lanes.svg"),
        "{}",
        ANEW
    );
}

/// The options are read as the assembler's program reads them.
#[test]
fn the_jobs_are_those_of_the_outputs() {
    let examples = examples::all().unwrap();
    assert!(!examples.is_empty());
    for example in examples {
        assert_eq!(
            engines_text(&example.job),
            example.output,
            "{}",
            example.name
        );
    }
}
