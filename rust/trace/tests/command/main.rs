//! The program `tpasm-trace`: traces, pictures and profiles of the examples and of jobs of every kind.

mod bad_input;
mod bad_usage;
mod documentation;
mod faults;
mod orders;
mod pictures;
mod profiles;
mod stacks;
mod traces;

use checks::run_program::at_the_root;
use lanes::examples::{self, Example};
use std::fs;
use std::io::Write;
use std::path::{Path, PathBuf};
use std::process::{Command, Stdio};

/// What one run left.
struct Outcome {
    status: Option<i32>,
    out: String,
    err: String,
}

/// Runs the program in this folder.
fn run_in(folder: &Path, input: &[u8], arguments: &[&str]) -> Outcome {
    let mut child = Command::new(env!("CARGO_BIN_EXE_tpasm-trace"))
        .args(arguments)
        .current_dir(folder)
        .stdin(Stdio::piped())
        .stdout(Stdio::piped())
        .stderr(Stdio::piped())
        .spawn()
        .unwrap();
    // A run that reads nothing may have ended already.
    let _ = child.stdin.take().unwrap().write_all(input);
    let output = child.wait_with_output().unwrap();
    Outcome {
        status: output.status.code(),
        out: String::from_utf8(output.stdout).unwrap(),
        err: String::from_utf8(output.stderr).unwrap(),
    }
}

/// What a run at the root prints that goes well. Warnings there may be.
#[track_caller]
fn printed(arguments: &[&str]) -> String {
    let outcome = run_in(&at_the_root(""), b"", arguments);
    assert_eq!(outcome.status, Some(0), "{:?}: {}", arguments, outcome.err);
    outcome.out
}

/// A command on an example's job, with options.
fn of_example(command: &str, example: &Example, options: &[&str]) -> String {
    let source = format!("examples/{0}/{0}.tpal", folder_of(example));
    let mut arguments = vec![command, &source];
    arguments.extend(example.options.split_whitespace());
    arguments.extend(options);
    printed(&arguments)
}

fn folder_of(example: &Example) -> &str {
    example.name.split('/').next().unwrap()
}

fn all() -> Vec<Example> {
    let examples = examples::all().unwrap();
    assert!(!examples.is_empty());
    examples
}

/// A folder of its own for a test.
struct Folder(PathBuf);

impl Folder {
    fn new(test: &str) -> Self {
        let path = Path::new(env!("CARGO_TARGET_TMPDIR")).join(test);
        let _ = fs::remove_dir_all(&path);
        fs::create_dir_all(&path).unwrap();
        Folder(path)
    }

    fn with(test: &str, file: &str, text: impl AsRef<[u8]>) -> Self {
        let folder = Folder::new(test);
        folder.write(file, text);
        folder
    }

    fn write(&self, name: &str, bytes: impl AsRef<[u8]>) {
        fs::write(self.0.join(name), bytes).unwrap();
    }

    fn read(&self, name: &str) -> String {
        fs::read_to_string(self.0.join(name)).unwrap()
    }

    fn run(&self, arguments: &str) -> Outcome {
        let arguments: Vec<&str> = arguments.split_whitespace().collect();
        run_in(&self.0, b"", &arguments)
    }

    /// What a run prints that goes well.
    #[track_caller]
    fn printed(&self, arguments: &str) -> String {
        let outcome = self.run(arguments);
        assert_eq!(outcome.status, Some(0), "{}", outcome.err);
        outcome.out
    }

    /// What is said by a run that fails with this status. It prints nothing, and changes no file.
    #[track_caller]
    fn fails(&self, status: i32, arguments: &str) -> String {
        let before = self.files();
        let outcome = self.run(arguments);
        assert_eq!(outcome.status, Some(status), "{}", arguments);
        assert_eq!(outcome.out, "");
        assert!(self.files() == before, "{}", arguments);
        outcome.err
    }

    fn files(&self) -> Vec<(PathBuf, Vec<u8>)> {
        let paths = fs::read_dir(&self.0).unwrap();
        let mut files: Vec<_> = paths
            .map(|entry| entry.unwrap().path())
            .map(|path| (path.clone(), fs::read(path).unwrap()))
            .collect();
        files.sort();
        files
    }
}

/// The end of a trace, from the result on.
fn end_of(trace: &str) -> &str {
    match trace.starts_with("end ") {
        true => trace,
        false => trace.split_once("\n\n").unwrap().1,
    }
}

/// The run program's result in a trace's end: without the names beside registers, and without what
/// comes after it.
fn result_of(trace: &str) -> String {
    let result = end_of(trace).split("\n\n").next().unwrap();
    let line = |line: &str| {
        let mut words: Vec<&str> = line.split_whitespace().collect();
        let is_register = words[0].starts_with('r');
        if is_register {
            words.truncate(if words[1] == "rec" { 4 } else { 3 });
        }
        words.join(" ") + "\n"
    };
    result.lines().map(line).collect()
}
