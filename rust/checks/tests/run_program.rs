//! The run program, `target/bin/tpal_run`, on inputs with stored outputs, with the engine's job text
//! and the model beside it.

use checks::hand::{by_zero, endless, f, f_with, figure_2, long, of_picks, outside, refused};
use checks::run_program::{at_the_root, printed, printed_for, program, report};
use std::fs::{self, File, OpenOptions};
use std::process::{Command, Stdio};

fn stored(name: &str) -> String {
    let path = at_the_root("rust/checks/tests/data").join(name);
    fs::read_to_string(&path).unwrap_or_else(|error| panic!("{}: {}", path.display(), error))
}

#[test]
fn jobs_with_stored_outputs() {
    let jobs = [
        ("f.txt", f(2)),
        ("f_one_place.txt", f(1)),
        ("f_two_faults.txt", f_with(outside(), by_zero())),
        ("figure_2_a2_interval_0.txt", figure_2(2, 1, 0)),
        ("figure_2_a3_interval_8.txt", figure_2(3, 2, 8)),
        ("figure_2_a4_interval_8.txt", figure_2(4, 2, 8)),
        ("figure_2_a4_interval_10.txt", figure_2(4, 2, 10)),
        ("spent.txt", endless()),
    ];
    for (name, input) in jobs {
        assert_eq!(report(&input.bytes()), stored(name), "{}", name);
    }
}

/// Document 01's number. A job that ends on the last of these picks has ended; one that needs a pick
/// more is spent.
#[test]
fn the_budget_is_1_000_000_picks() {
    for picks in [5, 6, 7, 999_999, 1_000_000] {
        let text = report(&of_picks(picks).bytes());
        let front = format!("end halt\nwork {}\nspan {}\nr0 int 0\n", picks, picks);
        assert!(text.starts_with(&front), "{} picks: {}", picks, text);
    }
    for picks in [1_000_001, 1_000_002, 1_000_003, 2_000_000] {
        let text = report(&of_picks(picks).bytes());
        assert_eq!(text, "end spent\nwork 1000000\n", "{} picks", picks);
    }
}

/// Where nothing is printed on standard output, standard error says why.
#[test]
fn an_input_that_cannot_be_read() {
    let folder = File::open(at_the_root("examples")).expect("the folder opens");
    let output = Command::new(program())
        .stdin(Stdio::from(folder))
        .output()
        .expect("the program starts");
    assert_eq!(output.stdout, b"");
    let complaint = "tpal_run: standard input could not be read\n";
    assert_eq!(String::from_utf8_lossy(&output.stderr), complaint);
}

#[test]
fn an_output_that_cannot_be_written() {
    // No job: it reads nothing, and would print a refusal.
    let full = OpenOptions::new().write(true).open("/dev/full");
    let output = Command::new(program())
        .stdin(Stdio::null())
        .stdout(Stdio::from(full.expect("the device opens")))
        .stderr(Stdio::piped())
        .spawn()
        .and_then(|child| child.wait_with_output())
        .expect("the program starts");
    let complaint = "tpal_run: standard output could not be written\n";
    assert_eq!(String::from_utf8_lossy(&output.stderr), complaint);
}

#[test]
fn refused_jobs() {
    for (number, job) in refused() {
        assert_eq!(printed(&job), format!("refused {}\n", number));
    }
}

#[test]
fn input_that_ends_early() {
    let job = f(2).bytes();
    for length in [0, 1, 2, 3, 157, 158, 161, 288, 289] {
        assert!(length < job.len());
        assert_eq!(printed(&job[..length]), "refused 10\n", "{} bytes", length);
    }
}

#[test]
fn input_that_goes_on() {
    for extra in [1, 7, 8, 4_096, 100_000, 600_000] {
        let mut job = f(2).bytes();
        job.resize(job.len() + extra, 0);
        assert_eq!(printed(&job), "refused 10\n", "{} bytes more", extra);
    }
}

#[test]
fn input_that_comes_in_parts() {
    for lengths in [[1, 1, 1], [2, 156, 100], [100, 1, 188], [289, 0, 0]] {
        let mut rest = f(2).bytes();
        let mut parts = Vec::new();
        for length in lengths {
            parts.push(rest.drain(..length).collect());
        }
        parts.push(rest);
        assert_eq!(printed_for(parts), stored("f.txt"), "{:?}", lengths);
    }
}

#[test]
fn long_inputs() {
    for image_len in [65_533, 65_534, 65_535] {
        assert_eq!(printed(&long(image_len)), "refused 2\n");
    }
    for extra in [1, 2, 8, 65_536, 2_000_000] {
        let mut job = long(65_535);
        assert_eq!(job.len(), 589_950);
        job.resize(589_950 + extra, 0);
        assert_eq!(printed(&job), "refused 10\n", "{} bytes more", extra);
    }
}
