//! Warnings: printed, and denied where that is asked for.

use crate::Folder;

const SOURCE: &str = "main:\n  r0 := r0 / 0\n  halt\n";
const WARNING: &str = "\
zero.tpal:2:14: warning: the divisor is 0: carried out, this ends the task with fault 32
    2 |   r0 := r0 / 0
      |              ^
";

fn folder(test: &str) -> Folder {
    let folder = Folder::new(test);
    folder.write("zero.tpal", SOURCE.as_bytes());
    folder
}

#[test]
fn printed() {
    let folder = folder("warnings_printed");
    let image = tpasm::assemble(SOURCE.as_bytes()).unwrap().image;
    let outcome = folder.run("image zero.tpal");
    assert_eq!(outcome.status, Some(0));
    assert_eq!(
        (outcome.out, outcome.err.as_str()),
        (image.clone(), WARNING)
    );
    let outcome = folder.run("job zero.tpal -o zero.job");
    assert_eq!((outcome.status, outcome.err.as_str()), (Some(0), WARNING));
    assert_eq!(folder.read("zero.job")[2..][..image.len()], image);
}

#[test]
fn denied() {
    let folder = folder("warnings_denied");
    let lines = format!(
        "{}tpasm: zero.tpal: nothing is written: --deny-warnings\n",
        WARNING
    );
    for arguments in [
        "image zero.tpal --deny-warnings",
        "image --deny-warnings zero.tpal -o new.tpb",
        "job zero.tpal --places 2 --deny-warnings -o new.job",
    ] {
        assert_eq!(folder.failure(arguments), lines);
    }
}

#[test]
fn nothing_to_deny() {
    let folder = folder("nothing_to_deny");
    let image = folder.output("image good.tpal");
    assert_eq!(folder.output("image good.tpal --deny-warnings"), image);
}

/// They are about a program, and not about its names.
#[test]
fn names_come_without() {
    let folder = folder("names_without_warnings");
    assert_eq!(folder.output("names zero.tpal"), b"");
}
