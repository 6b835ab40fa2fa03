//! The jobs of examples/, found by their files as in the assembler's tests.

use crate::options::changed;
use checks::run_program::at_the_root;
use std::ffi::OsStr;
use std::fs;
use std::path::{Path, PathBuf};

/// A job, with what the run program prints for it.
pub struct Example {
    /// The folder, and the job where it is not the folder's own: `sum`, `sum/serial`.
    pub name: String,
    /// Its text, and the options of `tpasm job` that make the job of it.
    pub source: PathBuf,
    pub options: String,
    pub job: Vec<u8>,
    pub output: String,
}

/// By folder; in one, its own job first.
pub fn all() -> Result<Vec<Example>, String> {
    let mut outputs = Vec::new();
    for folder in entries(&at_the_root("examples"))? {
        if folder.is_dir() {
            outputs.extend(entries(&folder)?);
        }
    }
    outputs.retain(|path| path.extension() == Some(OsStr::new("out")));
    outputs.sort_by_key(|path| (folder_of(path), !is_folders(path), path.clone()));
    outputs.iter().map(|path| example(path)).collect()
}

fn entries(folder: &Path) -> Result<Vec<PathBuf>, String> {
    let named = |error| at(folder, error);
    let paths = fs::read_dir(folder).map_err(named)?;
    paths
        .map(|entry| Ok(entry.map_err(named)?.path()))
        .collect()
}

fn example(output: &Path) -> Result<Example, String> {
    let folder = folder_of(output);
    let source = output.with_file_name(&folder).with_extension("tpal");
    // The folder's own job has no options of its own.
    let options = fs::read_to_string(output.with_extension("args")).unwrap_or_default();
    let assembly = fs::read(&source)
        .map_err(|error| at(&source, error))
        .and_then(|text| {
            tpasm::assemble(&text)
                .map_err(|errors| tpasm::show(&source.display().to_string(), &text, &errors))
        })?;
    let settings = changed(&assembly, &options).map_err(|what| at(output, what))?;
    Ok(Example {
        name: name(output),
        job: tpasm::job(&assembly.image, &settings),
        source,
        options,
        output: fs::read_to_string(output).map_err(|error| at(output, error))?,
    })
}

fn name(output: &Path) -> String {
    let folder = folder_of(output);
    match output.file_stem() {
        Some(job) if !is_folders(output) => format!("{}/{}", folder, job.to_string_lossy()),
        _ => folder,
    }
}

fn folder_of(file: &Path) -> String {
    let folder = file.parent().and_then(Path::file_name).unwrap_or_default();
    folder.to_string_lossy().into_owned()
}

fn is_folders(file: &Path) -> bool {
    file.file_stem() == Some(OsStr::new(&folder_of(file)))
}

fn at(path: &Path, what: impl std::fmt::Display) -> String {
    format!("{}: {}", path.display(), what)
}
