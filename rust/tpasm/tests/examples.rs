//! Each program of examples/: assembled, run by the run program, the engine's job text and the model,
//! picked in orders over its own places, and compared with the output beside it. A new one is found
//! by its files; no test here names it or counts it.

use checks::replay::{compare, orders_to_the_end, ReplayCase};
use checks::run_program::{at_the_root, RUN_PROGRAMS};
use engine::STATE_BYTES;
use model::job::{text_of, Report};
use model::Answer;
use std::ffi::OsStr;
use std::fs;
use std::path::{Path, PathBuf};
use std::process::Command;

/// Jobs with more work than this are run, but not picked: each pick puts all questions.
const PICKED: u32 = 10_000;

/// A job of examples/: `NAME.out` is what it prints. Its source is the folder's, and `NAME.args`,
/// where it stands, has the options of `tpasm job`.
struct Example {
    out: PathBuf,
}

impl Example {
    fn named(name: &str) -> Self {
        Example {
            out: folder().join(name).with_extension("out"),
        }
    }

    fn expected(&self) -> String {
        fs::read_to_string(&self.out).unwrap()
    }

    fn job(&self) -> Vec<u8> {
        let folder = self.out.parent().unwrap();
        let source = folder.join(folder.file_name().unwrap());
        let arguments = fs::read_to_string(self.out.with_extension("args")).unwrap_or_default();
        let output = Command::new(env!("CARGO_BIN_EXE_tpasm"))
            .arg("job")
            .arg(source.with_extension("tpal"))
            .args(arguments.split_whitespace())
            .current_dir(at_the_root(""))
            .output()
            .unwrap();
        let complaint = String::from_utf8_lossy(&output.stderr);
        assert!(output.status.success(), "{}", complaint);
        output.stdout
    }

    /// The words after a line's first one.
    fn line(&self, first: &str) -> String {
        let expected = self.expected();
        let start = format!("{} ", first);
        let line = expected.lines().find_map(|line| line.strip_prefix(&start));
        line.unwrap_or_default().to_string()
    }

    fn number(&self, first: &str) -> u32 {
        self.line(first).parse().unwrap()
    }
}

fn folder() -> PathBuf {
    at_the_root("examples")
}

fn files(folder: &Path) -> Vec<PathBuf> {
    let mut files: Vec<PathBuf> = fs::read_dir(folder)
        .unwrap()
        .map(|entry| entry.unwrap().path())
        .collect();
    files.sort();
    files
}

fn folders(examples: &Path) -> impl Iterator<Item = PathBuf> {
    files(examples).into_iter().filter(|path| path.is_dir())
}

fn all() -> Vec<Example> {
    folders(&folder())
        .flat_map(|folder| files(&folder))
        .filter(|path| path.extension() == Some(OsStr::new("out")))
        .map(|out| Example { out })
        .collect()
}

/// What a folder of examples lacks: a text, options or an output that should stand beside another
/// file.
fn complaints(examples: &Path) -> Vec<String> {
    let mut complaints = Vec::new();
    for folder in folders(examples) {
        let name = folder.file_name().unwrap();
        let source = folder.join(name).with_extension("tpal");
        if !source.exists() {
            complaints.push(format!("{}: no such text", source.display()));
        }
        for path in files(&folder) {
            let is = |extension| path.extension() == Some(OsStr::new(extension));
            let lacks = |extension| !path.with_extension(extension).exists();
            let is_folders = path.file_stem() == Some(name);
            let complaint = if is("tpal") && !is_folders {
                "a folder's text has the folder's name"
            } else if (is("tpal") || is("args")) && lacks("out") {
                "no output (.out) beside it"
            } else if is("out") && !is_folders && lacks("args") {
                "no options (.args) beside it"
            } else {
                continue;
            };
            complaints.push(format!("{}: {}", path.display(), complaint));
        }
    }
    complaints
}

#[test]
fn every_text_has_an_output_and_every_output_a_text() {
    let complaints = complaints(&folder());
    assert!(complaints.is_empty(), "{}", complaints.join("\n"));
}

#[test]
fn what_an_example_lacks_is_said() {
    let examples = Path::new(env!("CARGO_TARGET_TMPDIR")).join("examples");
    let _ = fs::remove_dir_all(&examples);
    let paths = [
        "good/good.tpal",
        "good/good.out",
        "good/serial.args",
        "good/serial.out",
        "good/words.bin",
        "no-output/no-output.tpal",
        "no-output/serial.args",
        "no-text/no-text.out",
        "other-text/other.tpal",
        "other-text/other.out",
        "other-text/other-text.tpal",
        "other-text/other-text.out",
    ];
    for path in paths {
        let path = examples.join(path);
        fs::create_dir_all(path.parent().unwrap()).unwrap();
        fs::write(path, "").unwrap();
    }
    let expected = [
        "no-output/no-output.tpal: no output (.out) beside it",
        "no-output/serial.args: no output (.out) beside it",
        "no-text/no-text.tpal: no such text",
        "other-text/other.out: no options (.args) beside it",
        "other-text/other.tpal: a folder's text has the folder's name",
    ];
    let expected = expected.map(|line| examples.join(line).display().to_string());
    assert_eq!(complaints(&examples), expected);
}

#[test]
fn every_example_prints_its_output() {
    let examples = all();
    assert!(!examples.is_empty());
    for example in &examples {
        let job = example.job();
        for (name, report) in RUN_PROGRAMS {
            assert_eq!(
                report(&job),
                example.expected(),
                "{} on {}",
                name,
                example.out.display()
            );
        }
    }
}

/// Whatever the order over the job's own places, the engine's replay and the model's machine are left
/// in the same state, and that one has the output's end, work, span and registers.
#[test]
fn every_order_comes_to_the_output() {
    let ended = |example: &Example| example.line("end") != "spent";
    let mut picked = 0;
    for example in all().into_iter().filter(ended) {
        let work = example.number("work");
        if work > PICKED {
            continue;
        }
        let job = example.job();
        for (manner, order) in orders_to_the_end(&job, 1) {
            let name = format!("{}, {}", example.out.display(), manner);
            let case = ReplayCase {
                job: job.clone(),
                order,
                state_len: STATE_BYTES,
            };
            let replayed = match compare(&case, 0) {
                Ok(Ok(replayed)) => replayed,
                Ok(Err(refusal)) => panic!("{}: refused {}", name, refusal),
                Err(difference) => panic!("{}: {}", name, difference),
            };
            let report = Report::of(&replayed.machine, Answer::Ended, work.into());
            assert_eq!(text_of(&Ok(report)), example.expected(), "{}", name);
        }
        picked += 1;
    }
    assert!(picked > 0);
}

/// Document 01's 'Tried by hand' and document 02's request 1: end, work, span and, of the product,
/// c.
#[test]
fn documents_01_and_02() {
    let cases = [
        ("f/f", "halt", 9, Some(7)),
        ("f/one-place", "fault 37", 2, Some(2)),
        ("two-faults/two-faults", "fault 33", 4, Some(3)),
        ("product/product", "halt", 13, Some(13)),
        ("product/a-3-beat-8", "halt", 19, None),
        ("product/a-4-beat-8", "halt", 39, Some(33)),
        ("product/a-4-beat-10", "halt", 39, Some(33)),
        ("product/a-4-beat-11", "halt", 23, Some(23)),
    ];
    for (name, end, work, span) in cases {
        let example = Example::named(name);
        assert_eq!(example.line("end"), end, "{}", name);
        assert_eq!(example.number("work"), work, "{}", name);
        assert!(span.map_or(true, |span| span == example.number("span")));
    }
    let products = [
        ("product", 10),
        ("a-3-beat-8", 15),
        ("a-4-beat-8", 20),
        ("a-4-beat-10", 20),
        ("a-4-beat-11", 20),
    ];
    for (name, c) in products {
        let example = Example::named(&format!("product/{}", name));
        assert_eq!(example.line("r2"), format!("int {}", c));
    }
}

/// A job without a fork has its work as its span.
#[test]
fn the_beat_forks_and_the_result_stays() {
    let cases: [(&str, &[&str]); 3] = [
        ("sum", &["int 241"]),
        ("maximum", &["int 44", "int 6"]),
        ("rates", &["int 704", "int 2"]),
    ];
    for (name, results) in cases {
        let forked = Example::named(&format!("{}/{}", name, name));
        let serial = Example::named(&format!("{}/serial", name));
        assert!(forked.number("span") < forked.number("work"), "{}", name);
        assert!(forked.number("span") < serial.number("span"), "{}", name);
        assert_eq!(serial.number("span"), serial.number("work"), "{}", name);
        for (register, result) in results.iter().enumerate() {
            let register = format!("r{}", register);
            assert_eq!(forked.line(&register), *result, "{}", name);
            assert_eq!(serial.line(&register), *result, "{}", name);
        }
    }
}

/// Document 02's request 4: version 2 where a stack is used, and else version 1. What `calls` and
/// `halves` come to was worked out by hand.
#[test]
fn subroutines() {
    for example in all() {
        let is = |name| example.out.parent() == Some(&folder().join(name));
        let version = if is("calls") || is("halves") { 2 } else { 1 };
        let job = example.job();
        assert_eq!(job[5..7], [version, 0], "{}", example.out.display());
    }
    for (name, work, span, result) in [
        ("calls/calls", 21, 21, "int 1950"),
        ("halves/halves", 203, 76, "int 119"),
        ("halves/serial", 194, 194, "int 119"),
    ] {
        let example = Example::named(name);
        assert_eq!(
            (example.number("work"), example.number("span")),
            (work, span)
        );
        assert_eq!(example.line("r0"), result, "{}", name);
    }
}

fn indented(text: &str) -> String {
    let line = |line: &str| format!("    {}\n", line).replace("    \n", "\n");
    text.lines().map(line).collect()
}

#[test]
fn two_programs_stand_in_the_documentation() {
    let page = fs::read_to_string(folder().join("../docs/assembly.md")).unwrap();
    let source = |name: &str| fs::read_to_string(folder().join(name)).unwrap();
    assert!(page.contains(&indented(&source("first/first.tpal"))));
    assert!(page.contains(&indented(&Example::named("first/first").expected())));
    // From its first block on.
    let calls = source("calls/calls.tpal");
    let blocks = calls.find("main:").expect("a first block");
    assert!(page.contains(&indented(&calls[blocks..])));
}
