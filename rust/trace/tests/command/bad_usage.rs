//! Bad command lines: one line with a hint, status 2. And help, where it is asked for.

use crate::Folder;

#[test]
fn bad_command_lines() {
    let f = include_str!("../../../../examples/f/f.tpal");
    let folder = Folder::with("bad_command_lines", "f.tpal", f);
    for (arguments, line) in [
        ("", "expected trace, picture or profile"),
        ("trace", "expected a file to read"),
        ("trace f.tpal --budget many", "--budget: expected a number of picks, found 'many'"),
        ("trace f.tpal --from -1", "--from: expected the number of a pick, found '-1'"),
        ("trace f.tpal --from 5 --to 4", "--from 5 is behind --to 4"),
        (
            "trace f.tpal --summary --slots",
            "--summary shows no picks: leave out --slots, --from and --to",
        ),
        (
            "trace f.tpal --lanes 2",
            "unknown option '--lanes': it is an option of 'tpasm picture'",
        ),
        ("picture f.tpal --lanes 9", "--lanes: expected 1 to 8 lanes, found '9'"),
        (
            "picture f.tpal --lanes 2 --order first",
            "--lanes and --order: the rounds are an order of their own",
        ),
        (
            "profile f.tpal --summary",
            "unknown option '--summary': it is an option of 'tpasm trace'",
        ),
        ("trace f.tpal --slot", "unknown option '--slot': did you mean '--slots'?"),
        (
            "trace f.tpal --places 3",
            "--places: expected 1, 2, 4, 8, 16, 32 or 64, found '3'",
        ),
        (
            "trace f.tpal --set y=1",
            "--set: expected a register of the source, found 'y'",
        ),
        (
            "trace f.tpal --order frist",
            "--order: expected passes, first, last, random:SEED or a file of slots, found 'frist': \
             did you mean 'first'?",
        ),
        ("trace f.tpal -o f.tpal", "-o: f.tpal is read too"),
    ] {
        let said = folder.fails(2, arguments);
        assert_eq!(said, format!("tpasm: {} (see 'tpasm --help')\n", line));
    }
}

#[test]
fn help() {
    let folder = Folder::new("help");
    let usage = folder.printed("--help");
    assert!(usage.starts_with("usage: tpasm trace FILE"));
    assert_eq!(folder.printed("picture x -h"), usage);
}
