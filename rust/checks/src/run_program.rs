//! What prints a job's outcome: the run program, the engine's job text, and the model.

use engine::TEXT_BYTES;
use model::job::BUDGET;
use std::io::{ErrorKind, Write};
use std::path::PathBuf;
use std::process::{Command, Stdio};
use std::thread;
use std::time::Duration;

/// Name, and what it prints for a job.
pub type RunProgram = (&'static str, fn(&[u8]) -> String);

pub const RUN_PROGRAMS: [RunProgram; 3] = [
    ("the run program", printed),
    ("the engine's job text", engines_text),
    ("the model", model::job::report),
];

/// What they all print for a job.
pub fn report(job: &[u8]) -> String {
    let (first, print) = RUN_PROGRAMS[0];
    let report = print(job);
    for (name, print) in &RUN_PROGRAMS[1..] {
        assert_eq!(print(job), report, "{}, beside {}", name, first);
    }
    report
}

/// A path of the repository.
pub fn at_the_root(path: &str) -> PathBuf {
    PathBuf::from(env!("CARGO_MANIFEST_DIR"))
        .join("../..")
        .join(path)
}

/// The run program, which `make` builds.
pub fn program() -> PathBuf {
    at_the_root("target/bin/tpal_run")
}

/// What the run program prints for this input.
pub fn printed(input: &[u8]) -> String {
    printed_for(vec![input.to_vec()])
}

/// What it prints for an input that comes in these parts, with a while between them. It prints
/// something, says nothing on standard error, and has status 0.
pub fn printed_for(parts: Vec<Vec<u8>>) -> String {
    let program = program();
    let mut child = Command::new(&program)
        .stdin(Stdio::piped())
        .stdout(Stdio::piped())
        .stderr(Stdio::piped())
        .spawn()
        .unwrap_or_else(|error| panic!("{}: {}; run `make`", program.display(), error));
    let mut stdin = child.stdin.take().expect("piped");
    let writer = thread::spawn(move || {
        for (number, part) in parts.iter().enumerate() {
            if number > 0 {
                thread::sleep(Duration::from_millis(20));
            }
            match stdin.write_all(part) {
                // It need not read what is too long to the end.
                Err(error) if error.kind() != ErrorKind::BrokenPipe => panic!("{}", error),
                _ => {}
            }
        }
    });
    let output = child.wait_with_output().expect("the program ends");
    writer.join().expect("the input is written");
    assert!(output.status.success(), "{}", output.status);
    assert_eq!(output.stderr, b"");
    assert_ne!(output.stdout, b"");
    String::from_utf8(output.stdout).expect("text")
}

/// What the engine's job text is with the run program's budget.
pub fn engines_text(job: &[u8]) -> String {
    let mut text = [0; TEXT_BYTES];
    let length = engine::job_text(job, BUDGET, &mut text);
    String::from_utf8(text[..length as usize].to_vec()).expect("text")
}
