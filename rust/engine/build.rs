//! Links the archive of `crates/job_c`, which `make` puts into `target/staticlib`.

use std::path::Path;
use std::{env, process};

fn main() {
    let crate_dir = env::var("CARGO_MANIFEST_DIR").unwrap();
    let archive_dir = Path::new(&crate_dir).join("../../target/staticlib");
    let archive = archive_dir.join("libjob.a");
    println!("cargo:rerun-if-changed={}", archive.display());
    if !archive.exists() {
        eprintln!(
            "{} is missing: run `make` at the repository's root",
            archive.display()
        );
        process::exit(1);
    }
    println!("cargo:rustc-link-search=native={}", archive_dir.display());
    println!("cargo:rustc-link-lib=static=job");
}
