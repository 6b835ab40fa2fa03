//! What docs/assembly.md shows is what is printed.

use crate::{printed, Folder};

const PAGE: &str = include_str!("../../../../docs/assembly.md");

/// The page has these lines, as code.
#[track_caller]
fn has(text: &str) {
    let line = |line: &str| format!("    {}\n", line).replace("    \n", "\n");
    let code: String = text.lines().map(line).collect();
    assert!(PAGE.contains(&code), "{}", code);
}

fn lines(text: &str, count: usize) -> String {
    let lines: Vec<&str> = text.lines().take(count).collect();
    lines.join("\n")
}

#[test]
fn the_trace_of_f() {
    let trace = printed(&["trace", "examples/f/f.tpal"]);
    has(&lines(&trace, 14));
    let columns = printed(&["trace", "examples/f/f.tpal", "--slots"]);
    has(&lines(&columns, 11));
}

#[test]
fn the_calls() {
    let part = ["--from", "9", "--to", "14"];
    let trace = printed(&[&["trace", "examples/calls/calls.tpal"], &part[..]].concat());
    has(&lines(&trace, 7));
}

#[test]
fn the_fault() {
    let trace = printed(&["trace", "examples/two-faults/two-faults.tpal"]);
    has(&lines(&trace, 5));
    let (_, story) = trace.split_once("r15 int 0\n\n").unwrap();
    has(story);
}

#[test]
fn the_profile_of_f() {
    has(&printed(&["profile", "examples/f/f.tpal"]));
}

/// The page has the command lines as `--help` prints them.
#[test]
fn help_and_documentation_agree() {
    let usage = Folder::new("help_and_documentation").printed("--help");
    let (commands, _) = usage.split_once("\n\n").unwrap();
    for line in commands.lines() {
        let line = line.trim_start_matches("usage:").trim();
        assert!(PAGE.contains(line), "{}", line);
    }
}
