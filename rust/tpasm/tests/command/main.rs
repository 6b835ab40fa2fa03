//! The program `tpasm`: files, standard input and output, options, statuses.

mod assembling;
mod bad_input;
mod bad_usage;
mod listing;
mod warnings;

use std::fs;
use std::io::Write;
use std::path::{Path, PathBuf};
use std::process::{Command, Stdio};

const GOOD: &str = "reg a = r3\nplaces 2\nset a = 4\nwords 1 2\nmain:\n  a := a + 1\n  halt\n";
const BAD: &str = "main:\n  r0 := r1 + r2\n";
const BAD_LINES: &str = "3:1: error: expected 'jump', 'halt' or 'join' to end block 'main', \
                         found the end of the file\n    3 |\n      | ^\n";

/// What one run left.
struct Outcome {
    status: Option<i32>,
    out: Vec<u8>,
    err: String,
}

/// A folder of its own for a test, with the sources good.tpal and bad.tpal.
struct Folder(PathBuf);

impl Folder {
    fn new(test: &str) -> Self {
        let path = Path::new(env!("CARGO_TARGET_TMPDIR")).join(test);
        let _ = fs::remove_dir_all(&path);
        fs::create_dir_all(&path).unwrap();
        fs::write(path.join("good.tpal"), GOOD).unwrap();
        fs::write(path.join("bad.tpal"), BAD).unwrap();
        Folder(path)
    }

    fn run_on(&self, input: &[u8], arguments: &str) -> Outcome {
        let mut child = Command::new(env!("CARGO_BIN_EXE_tpasm"))
            .args(arguments.split_whitespace())
            .current_dir(&self.0)
            .stdin(Stdio::piped())
            .stdout(Stdio::piped())
            .stderr(Stdio::piped())
            .spawn()
            .unwrap();
        // A run that reads nothing may have ended already.
        let _ = child.stdin.take().unwrap().write_all(input);
        let output = child.wait_with_output().unwrap();
        Outcome {
            status: output.status.code(),
            out: output.stdout,
            err: String::from_utf8(output.stderr).unwrap(),
        }
    }

    fn run(&self, arguments: &str) -> Outcome {
        self.run_on(b"", arguments)
    }

    /// Standard output of a run that went well.
    fn output(&self, arguments: &str) -> Vec<u8> {
        let outcome = self.run(arguments);
        assert_eq!((outcome.status, outcome.err.as_str()), (Some(0), ""));
        outcome.out
    }

    /// What a run printed which failed with this status and wrote nothing.
    #[track_caller]
    fn fails(&self, status: i32, arguments: &str) -> String {
        let before = self.files();
        let outcome = self.run(arguments);
        assert_eq!(outcome.status, Some(status), "{}", arguments);
        assert!(outcome.out.is_empty());
        assert_eq!(self.files(), before);
        outcome.err
    }

    /// What is said of a file at fault.
    #[track_caller]
    fn failure(&self, arguments: &str) -> String {
        self.fails(1, arguments)
    }

    /// The one line that is said of a bad command line, without its end.
    #[track_caller]
    fn misuse(&self, arguments: &str) -> String {
        let line = self.fails(2, arguments);
        let message = line.strip_suffix(" (see 'tpasm --help')\n");
        let message = message.and_then(|line| line.strip_prefix("tpasm: "));
        message.unwrap_or_else(|| panic!("{}", line)).to_string()
    }

    fn read(&self, name: &str) -> Vec<u8> {
        fs::read(self.0.join(name)).unwrap()
    }

    fn write(&self, name: &str, bytes: &[u8]) {
        fs::write(self.0.join(name), bytes).unwrap();
    }

    /// All files with their contents.
    fn files(&self) -> Vec<(PathBuf, Vec<u8>)> {
        let paths = fs::read_dir(&self.0).unwrap();
        let mut files: Vec<_> = paths
            .map(|entry| entry.unwrap().path())
            .map(|path| (path.clone(), fs::read(path).unwrap()))
            .collect();
        files.sort();
        files
    }
}

/// The image of `GOOD`.
fn image() -> Vec<u8> {
    tpasm::assemble(GOOD.as_bytes()).unwrap().image
}
