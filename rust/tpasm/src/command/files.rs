//! Files, standard input and standard output.

use std::ffi::OsString;
use std::fs;
use std::io::{self, Read, Write};
use std::path::{Path, PathBuf};

/// A file, or standard input or output.
#[derive(Clone, Debug, PartialEq, Eq)]
pub enum Place {
    Standard,
    File(PathBuf),
}

impl Place {
    pub fn of(argument: OsString) -> Self {
        if argument == "-" {
            Place::Standard
        } else {
            Place::File(argument.into())
        }
    }

    fn path(&self) -> Option<&Path> {
        match self {
            Place::Standard => None,
            Place::File(path) => Some(path),
        }
    }

    /// The same for two paths to one file. None: there is no such file yet.
    pub fn canonical(&self) -> Option<PathBuf> {
        self.path().and_then(|path| fs::canonicalize(path).ok())
    }

    /// In messages, where it is read.
    pub fn name(&self) -> String {
        match self {
            Place::Standard => "<stdin>".to_string(),
            Place::File(path) => path.display().to_string(),
        }
    }

    pub fn read(&self) -> Result<Vec<u8>, String> {
        let bytes = match self {
            Place::File(path) => fs::read(path),
            Place::Standard => {
                let mut bytes = Vec::new();
                io::stdin().read_to_end(&mut bytes).map(|_| bytes)
            }
        };
        bytes.map_err(|error| format!("{}: {}", self.name(), error))
    }

    pub fn write(&self, bytes: &[u8]) -> Result<(), String> {
        let written = match self {
            Place::File(path) => write_whole(path, bytes),
            Place::Standard => {
                let mut out = io::stdout();
                out.write_all(bytes).and_then(|()| out.flush())
            }
        };
        written.map_err(|error| {
            let name = match self {
                Place::Standard => "<stdout>".to_string(),
                Place::File(_) => self.name(),
            };
            format!("{}: {}", name, error)
        })
    }
}

/// Writes a file whole or not at all: the bytes go to a new file beside it, which then takes its
/// place. What is no file, and what stands in a folder that takes none, is written where it stands.
fn write_whole(path: &Path, bytes: &[u8]) -> io::Result<()> {
    let target = fs::canonicalize(path).unwrap_or_else(|_| path.to_path_buf());
    let old = fs::metadata(&target).ok();
    let is_other = old.as_ref().map_or(false, |old| !old.is_file());
    let mut name = target.file_name().unwrap_or_default().to_os_string();
    name.push(format!(".{}.new", std::process::id()));
    let beside = target.with_file_name(name);
    if is_other || fs::File::create(&beside).is_err() {
        return fs::write(path, bytes);
    }
    let written = fs::write(&beside, bytes)
        .and_then(|()| {
            old.map_or(Ok(()), |old| {
                fs::set_permissions(&beside, old.permissions())
            })
        })
        .and_then(|()| fs::rename(&beside, &target));
    if written.is_err() {
        let _ = fs::remove_file(&beside);
    }
    written
}

/// Messages. Where standard error takes none, the status is left to say it.
pub fn complain(text: &str) {
    let _ = io::stderr().write_all(text.as_bytes());
}
