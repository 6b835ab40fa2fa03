//! Traces of the examples as they are stored, parts of traces, and other files than texts.

use crate::{all, end_of, of_example, Folder};
use checks::run_program::at_the_root;
use std::fs;

const ANEW: &str = "run `make traces`, and look at what has changed";

#[test]
fn the_stored_traces_of_the_examples() {
    for example in all() {
        let name = example.name.replace('/', "-");
        let path = format!("rust/trace/tests/data/{}.trace", name);
        let stored = fs::read_to_string(at_the_root(&path));
        let stored = stored.unwrap_or_else(|error| panic!("{}: {}; {}", path, error, ANEW));
        assert_eq!(of_example("trace", &example, &[]), stored, "{}", ANEW);
    }
}

/// A trace that no example has any more.
#[test]
fn no_trace_without_its_example() {
    let names: Vec<String> = all()
        .iter()
        .map(|example| example.name.replace('/', "-") + ".trace")
        .collect();
    for entry in fs::read_dir(at_the_root("rust/trace/tests/data")).unwrap() {
        let name = entry.unwrap().file_name().into_string().unwrap();
        assert!(names.contains(&name), "{}", name);
    }
}

/// The head, the lines of these picks, an empty line and the end.
#[test]
fn a_part_has_the_lines_of_the_whole() {
    for example in all() {
        for order in ["passes", "first", "last", "random:3"] {
            let options = ["--order", order];
            let whole = of_example("trace", &example, &options);
            let lines: Vec<&str> = whole.lines().collect();
            let picks = lines.iter().position(|line| line.is_empty()).unwrap() - 1;
            for (from, to) in [(1, 1), (2, 3), (picks / 2, picks), (picks, picks + 9)] {
                let from = from.max(1);
                let (first, last) = (from.to_string(), to.to_string());
                let options = ["--order", order, "--from", &first, "--to", &last];
                let part = of_example("trace", &example, &options);
                let shown = &lines[from.min(picks + 1)..=to.min(picks)];
                let expected = [&lines[..1], shown, &lines[picks + 1..]].concat();
                let place = (&example.name, order, from, to);
                assert_eq!(part.lines().collect::<Vec<_>>(), expected, "{:?}", place);
            }
        }
    }
}

#[test]
fn a_summary_is_the_end_of_the_trace() {
    for example in all() {
        for order in ["passes", "first", "last", "random:8"] {
            let trace = of_example("trace", &example, &["--order", order]);
            let summary = of_example("trace", &example, &["--order", order, "--summary"]);
            assert_eq!(summary, end_of(&trace), "{}, {}", example.name, order);
        }
    }
}

/// Names are b0 and r0 there, and instructions have the numbers of the listing.
#[test]
fn images_and_jobs() {
    let folder = Folder::new("images_and_jobs");
    let f = include_str!("../../../../examples/f/f.tpal");
    let assembly = tpasm::assemble(f.as_bytes()).unwrap();
    folder.write("f.tpb", &assembly.image);
    folder.write("f.job", tpasm::job(&assembly.image, &assembly.settings));
    let job = folder.printed("trace f.job");
    let lines: Vec<&str> = job.lines().collect();
    assert_eq!(
        lines[1],
        "      1    0    0  b0     r1 := jralloc b2  r1 = record of b2, depth 0, was 0"
    );
    assert!(lines[4].ends_with("r0 := r0 + 1      r0 = 5, was 4"));
    assert!(job.contains("\nr0 int 12\n"));
    let image = folder.printed("trace f.tpb --places 2 --set r0=4");
    assert_eq!(image, job);
    // An image alone has one place.
    let alone = folder.printed("trace f.tpb --summary");
    assert!(alone.contains(
        "\nf.tpb: instruction 1: fault 37: the task has not two places to fork\n      \
         | fork r1, b1\n      pick 2, slot 0, block b0\n"
    ));
}

#[test]
fn one_column_a_slot() {
    let f = all().into_iter().find(|example| example.name == "f");
    let trace = of_example("trace", &f.unwrap(), &["--slots"]);
    let lines: Vec<&str> = trace.lines().take(12).collect();
    assert_eq!(lines[0], "| runs, ~ waits, ! is faulted and waits");
    assert_eq!(lines[1], "   pick  slot 0                 slot 1");
    assert_eq!(lines[5], "      4  13 x := x + 1          |");
    assert_eq!(
        lines[7],
        "      6  14 join jr             ~                      \
         joins slot 1: one task in slot 0, at comb, other = 7"
    );
}

/// Columns for 64 instructions would be too wide: there are lines alone.
#[test]
fn columns_of_many_slots() {
    let f = all().into_iter().find(|example| example.name == "f");
    let trace = of_example("trace", &f.unwrap(), &["--slots", "--places", "64"]);
    let lines: Vec<&str> = trace.lines().collect();
    assert!(lines[1].starts_with("   pick  0     1     2     3 "));
    assert!(lines[5].starts_with("      4  13    "));
    assert!(lines[5].ends_with("  x := x + 1"));
    assert_eq!(lines[5].find('|'), Some(9 + 6 * 32));
}
