//! Bad command lines: one line with a hint, status 2. And help, where it is asked for.

use crate::Folder;

#[test]
fn bad_command_lines() {
    let folder = Folder::new("bad_command_lines");
    for (arguments, line) in [
        (
            "",
            "expected image, job, list, names, trace, picture or profile",
        ),
        (
            "run good.tpal",
            "expected image, job, list, names, trace, picture or profile, found 'run'",
        ),
        ("image", "expected a file to read"),
        (
            "image good.tpal bad.tpal",
            "expected one file to read, also found 'bad.tpal'",
        ),
        ("image good.tpal -o", "expected a value after -o"),
        (
            "job good.tpal --places 3",
            "--places: expected 1, 2, 4, 8, 16, 32 or 64, found '3'",
        ),
        (
            "job good.tpal --interval 7",
            "--interval: expected 0 or 8 to 65535, found '7'",
        ),
        (
            "job good.tpal --set a",
            "--set: expected REGISTER=INTEGER, found 'a'",
        ),
        (
            "job good.tpal --set b=1 -o new.job",
            "--set: expected a register of the source, found 'b'",
        ),
        (
            "job - --words -",
            "source and words cannot both come from standard input",
        ),
        ("image good.tpal -o good.tpal", "-o: good.tpal is read too"),
        (
            "image good.tpal -o ./good.tpal",
            "-o: ./good.tpal is read too",
        ),
    ] {
        assert_eq!(folder.misuse(arguments), line);
    }
}

#[test]
fn unknown_options() {
    let folder = Folder::new("unknown_options");
    for (arguments, line) in [
        ("image good.tpal --out x", "unknown option '--out'"),
        ("image good.tpal -x", "unknown option '-x'"),
        (
            "image good.tpal --places 2",
            "unknown option '--places': it is an option of 'tpasm job'",
        ),
        (
            "job good.tpal --offsets",
            "unknown option '--offsets': it is an option of 'tpasm list'",
        ),
        (
            "job good.tpal --place=2",
            "unknown option '--place': did you mean '--places'?",
        ),
        (
            "list good.tpb --ofsets",
            "unknown option '--ofsets': did you mean '--offsets'?",
        ),
        (
            "image good.tpal --deny-warning",
            "unknown option '--deny-warning': did you mean '--deny-warnings'?",
        ),
        (
            "list good.tpb --offsets=yes",
            "--offsets: expected no value",
        ),
    ] {
        assert_eq!(folder.misuse(arguments), line);
    }
}

#[test]
fn near_commands_and_registers() {
    let folder = Folder::new("near_commands");
    folder.write("total.tpal", b"reg total = r0\nmain: halt\n");
    for (arguments, line) in [
        (
            "imgae good.tpal",
            "expected image, job, list, names, trace, picture or profile, found 'imgae': did you mean 'image'?",
        ),
        (
            "job total.tpal --set totl=1",
            "--set: expected a register of the source, found 'totl': did you mean 'total'?",
        ),
    ] {
        assert_eq!(folder.misuse(arguments), line);
    }
}

#[test]
fn help() {
    let folder = Folder::new("help");
    let usage = folder.output("--help");
    assert!(usage.starts_with(b"usage: tpasm image SOURCE"));
    for arguments in ["-h", "job --help", "list x --offsets -h"] {
        assert_eq!(folder.output(arguments), usage);
    }
}

/// The page for authors has the command lines as `--help` prints them.
#[test]
fn help_and_documentation_agree() {
    let folder = Folder::new("help_and_documentation");
    let usage = String::from_utf8(folder.output("--help")).unwrap();
    let (commands, _) = usage.split_once("\n\n").unwrap();
    let page = include_str!("../../../../docs/assembly.md");
    for line in commands.lines() {
        let line = line.trim_start_matches("usage:").trim();
        assert!(page.contains(line), "{}", line);
    }
}
