//! Sources, images, jobs and files at fault: status 1, and nothing is written.

use crate::{image, Folder, BAD, BAD_LINES};
use std::fs;
use std::process::Command;

#[test]
fn a_bad_source_changes_no_file() {
    let folder = Folder::new("a_bad_source");
    folder.write("old.tpb", b"as before");
    let lines = format!("bad.tpal:{}", BAD_LINES);
    for arguments in [
        "image bad.tpal",
        "image bad.tpal -o new.tpb",
        "image bad.tpal -o old.tpb",
        "job bad.tpal -o new.job",
        "job bad.tpal -o old.tpb --places 2",
        "names bad.tpal -o new",
    ] {
        assert_eq!(folder.failure(arguments), lines);
    }
    let outcome = folder.run_on(BAD.as_bytes(), "image - -o old.tpb");
    assert_eq!(outcome.err, format!("<stdin>:{}", BAD_LINES));
    assert_eq!(folder.read("old.tpb"), b"as before");
}

#[test]
fn a_refused_image_in_words() {
    let folder = Folder::new("a_refused_image");
    let mut image = image();
    image[5] = 0;
    folder.write("none.tpb", &image);
    assert_eq!(
        folder.failure("list none.tpb -o new.tpal"),
        "tpasm: none.tpb: refused 4: there are not 1 to 128 blocks and 1 to 1024 instructions\n"
    );
}

#[test]
fn a_refused_job_in_words() {
    let folder = Folder::new("a_refused_job");
    let job = folder.output("job good.tpal");
    let settings = 2 + image().len();
    let refused = |at: usize, byte: u8| {
        let mut bytes = job.clone();
        bytes[at] = byte;
        folder.write("bad.job", &bytes);
        folder.failure("list bad.job -o new.tpal")
    };
    assert_eq!(
        refused(0, 7),
        "tpasm: bad.job: refused 10: the job does not end exactly after its last word\n"
    );
    assert_eq!(
        refused(5, 9),
        "tpasm: bad.job: refused 3: the image's version is not 1 or 2\n"
    );
    assert_eq!(
        refused(settings, 3),
        "tpasm: bad.job: refused 11: the places are not 1, 2, 4, 8, 16, 32 or 64\n"
    );
    assert_eq!(
        refused(settings + 1, 7),
        "tpasm: bad.job: refused 12: the interval is not 0 or 8 to 65535\n"
    );
    let mut long = job[..job.len() - 18].to_vec();
    long.extend(4097_u16.to_le_bytes());
    long.extend([0; 8 * 4097]);
    folder.write("long.job", &long);
    assert_eq!(
        folder.failure("list long.job"),
        "tpasm: long.job: refused 14: there are more than 4096 words\n"
    );
}

#[test]
fn neither_an_image_nor_a_job() {
    let folder = Folder::new("neither");
    folder.write("short", b"TP");
    folder.write("long", b"TTTTTTTTTTTT");
    for (arguments, line) in [
        (
            "list short",
            "short: refused 1: the image has fewer than 8 bytes",
        ),
        (
            "list long",
            "long: refused 2: the image does not begin with the letters TPB",
        ),
        (
            "list good.tpal",
            "good.tpal: refused 2: the image does not begin with the letters TPB",
        ),
    ] {
        assert_eq!(folder.failure(arguments), format!("tpasm: {}\n", line));
    }
}

#[test]
fn bad_files() {
    let folder = Folder::new("bad_files");
    let missing = folder.failure("image none.tpal -o new.tpb");
    assert!(missing.starts_with("tpasm: none.tpal: "), "{}", missing);
    let nowhere = folder.failure("image good.tpal -o none/out.tpb");
    assert!(nowhere.starts_with("tpasm: none/out.tpb: "), "{}", nowhere);
    folder.write("odd", &[0; 13]);
    assert_eq!(
        folder.failure("job good.tpal --words odd -o new.job"),
        "tpasm: odd: expected 64-bit words, found 13 bytes\n"
    );
    folder.write("many", &[0; 8 * 4097]);
    assert_eq!(
        folder.failure("job good.tpal --words many -o new.job"),
        "tpasm: many: expected at most 4096 words, found 4097\n"
    );
}

/// What needs the engine is a program of its own; the assembler is built without it.
#[test]
fn the_other_program_is_missing() {
    let folder = Folder::new("the_other_program");
    let alone = folder.0.join("tpasm");
    // A copy may still be open in another test's child, and is then not run.
    fs::hard_link(env!("CARGO_BIN_EXE_tpasm"), &alone).unwrap();
    for command in ["trace", "picture", "profile"] {
        let output = Command::new(&alone).arg(command).output().unwrap();
        let said = String::from_utf8(output.stderr).unwrap();
        assert_eq!(output.status.code(), Some(1));
        assert!(said.contains("tpasm-trace: "), "{}", said);
        assert!(said.contains("; `make` at the repository's root builds it"));
    }
}

/// A file that is written takes the other's place whole, with its permissions; nothing is left beside
/// it.
#[test]
fn an_old_file_is_replaced_whole() {
    let folder = Folder::new("replaced_whole");
    folder.write("old.tpb", &[7; 10_000]);
    let before = folder.files().len();
    assert_eq!(folder.output("image good.tpal -o old.tpb"), b"");
    assert_eq!(folder.read("old.tpb"), image());
    assert_eq!(folder.files().len(), before);
}
