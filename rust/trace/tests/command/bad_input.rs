//! Files at fault and refused jobs: status 1, in words, and nothing is written.

use crate::{run_in, Folder};

const COMMANDS: [&str; 3] = ["trace", "picture", "profile"];

fn with_f(test: &str) -> (Folder, Vec<u8>) {
    let f = include_str!("../../../../examples/f/f.tpal");
    let folder = Folder::with(test, "f.tpal", f);
    let assembly = tpasm::assemble(f.as_bytes()).unwrap();
    (folder, tpasm::job(&assembly.image, &assembly.settings))
}

/// F's job with one byte changed. Its image begins at 2; places and interval stand at 158 and 159.
#[test]
fn a_damaged_job_is_refused_in_words() {
    let (folder, job) = with_f("a_damaged_job");
    folder.write("old.svg", "as before");
    for (at, byte, words) in [
        (
            4,
            b'C',
            "refused 2: the image does not begin with the letters TPB",
        ),
        (5, 7, "refused 3: the image's version is not 1 or 2"),
        (
            7,
            3,
            "refused 5: the image's length does not fit its blocks and instructions",
        ),
        (
            32,
            3,
            "refused 7: a block's annotation is not as its version lays it out",
        ),
        (
            50,
            0,
            "refused 8: an instruction's opcode, registers, label or zeros are not as its version lays \
             them out",
        ),
        (
            158,
            3,
            "refused 11: the places are not 1, 2, 4, 8, 16, 32 or 64",
        ),
        (159, 7, "refused 12: the interval is not 0 or 8 to 65535"),
        (
            289,
            1,
            "refused 10: the job does not end exactly after its last word",
        ),
    ] {
        let mut damaged = job.clone();
        damaged[at] = byte;
        folder.write("bad.job", &damaged);
        for command in COMMANDS {
            for output in ["", "-o new", "-o old.svg"] {
                let said = folder.fails(1, &format!("{} bad.job {}", command, output));
                assert_eq!(said, format!("tpasm: bad.job: {}\n", words));
            }
        }
    }
}

#[test]
fn a_damaged_image_and_a_cut_one() {
    let (folder, job) = with_f("a_damaged_image");
    folder.write("bad.tpb", &job[2..157]);
    let said = folder.fails(1, "trace bad.tpb");
    let words = "refused 5: the image's length does not fit its blocks and instructions";
    assert_eq!(said, format!("tpasm: bad.tpb: {}\n", words));
    folder.write("cut.tpb", b"TPB");
    let said = folder.fails(1, "trace cut.tpb");
    assert_eq!(
        said,
        "tpasm: cut.tpb: refused 1: the image has fewer than 8 bytes\n"
    );
}

#[test]
fn a_text_with_an_error() {
    let folder = Folder::with("a_text_with_an_error", "bad.tpal", "main:\n  jmp main\n");
    for command in COMMANDS {
        let said = folder.fails(1, &format!("{} bad.tpal -o new", command));
        assert!(
            said.starts_with("bad.tpal:2:3: error: no such instruction: 'jmp'"),
            "{}",
            said
        );
    }
    folder.write("empty.tpal", "");
    let said = folder.fails(1, "trace empty.tpal");
    assert!(
        said.starts_with("empty.tpal:1:1: error: expected a block"),
        "{}",
        said
    );
}

#[test]
fn files_that_cannot_be_read_or_written() {
    let (folder, _) = with_f("no_such_files");
    assert!(folder
        .fails(1, "trace none.tpal")
        .starts_with("tpasm: none.tpal: "));
    assert!(folder
        .fails(1, "trace f.tpal -o none/out")
        .starts_with("tpasm: none/out: "));
    let bad = folder.fails(1, "trace f.tpal --words f.tpal -o new");
    assert!(
        bad.starts_with("tpasm: f.tpal: expected 64-bit words, found "),
        "{}",
        bad
    );
    folder.write("order", "0 0\n1 64 // beyond\n");
    assert_eq!(
        folder.fails(1, "trace f.tpal --order order"),
        "order:2: error: expected a slot, 0 to 63, found '64'\n"
    );
}

#[test]
fn from_standard_input_and_to_a_file() {
    let (folder, job) = with_f("standard_input");
    let outcome = run_in(&folder.0, &job, &["trace", "-", "--summary"]);
    assert_eq!(outcome.status, Some(0), "{}", outcome.err);
    assert_eq!(folder.printed("trace f.tpal -o out.trace"), "");
    assert_eq!(folder.read("out.trace"), folder.printed("trace f.tpal"));
    folder.write("out.trace", "longer than before, ".repeat(1000));
    assert_eq!(folder.printed("trace f.tpal -o out.trace"), "");
    assert_eq!(folder.read("out.trace"), folder.printed("trace f.tpal"));
}
