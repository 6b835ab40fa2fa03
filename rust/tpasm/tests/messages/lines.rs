//! Lines and columns: line ends, tabs, characters of several bytes, long lines.

use crate::{shown, shows};

const ABOUT: &str = "expected a register, found 'x', which names no register and no block";

#[test]
fn line_ends_of_each_kind() {
    for end in ["\n", "\r\n", "\r"] {
        let source = format!("// é{0}main:{0}  x := 1{0}  halt{0}", end);
        let expected = format!("x:3:3: error: {}\n    3 |   x := 1\n      |   ^\n", ABOUT);
        shows(&source, &expected);
    }
}

#[test]
fn a_tab_is_one_column_and_shown_as_blanks() {
    shows(
        "main:\n\thalt\tx\n",
        "x:2:7: error: expected ';' or the end of the line, found 'x'
    2 |         halt    x
      |                 ^
",
    );
}

#[test]
fn columns_count_characters() {
    shows(
        "main:\n  r0 := é + ü\n  halt\n",
        "x:2:9: error: expected a register, a label, an integer, 'word' or 'jralloc', found 'é'
    2 |   r0 := é + ü
      |         ^
",
    );
    shows(
        "\u{feff}reg é = r0\nmain: halt\n",
        "x:1:5: error: expected a new name for a register, found 'é'
    1 | reg é = r0
      |     ^
",
    );
}

#[test]
fn the_end_of_the_file() {
    shows(
        "main:\n  r0 := 1",
        "x:2:10: error: expected 'jump', 'halt' or 'join' to end block 'main', \
         found the end of the file
    2 |   r0 := 1
      |          ^
",
    );
    shows(
        "",
        "x:1:1: error: expected a block, which begins with a label, found the end of the file
    1 |
      | ^
",
    );
}

#[test]
fn a_byte_that_is_no_text() {
    assert_eq!(
        shown(b"main:\n  halt // \xc3\xa9\xff\n"),
        "x:2:12: error: expected text in UTF-8, found the byte 0xff
    2 |   halt // é\u{fffd}
      |            ^
"
    );
}

#[test]
fn a_long_line_is_shown_in_part() {
    let words = "1 ".repeat(200);
    let source = format!("words {}x 2\nmain: halt\n", words);
    let shown = format!("...{}x 2", &words[350..]);
    let expected = format!(
        "x:1:407: error: expected an integer, ',', ';' or the end of the line, found 'x'
    1 | {}
      | {}^
",
        shown,
        " ".repeat(53)
    );
    shows(&source, &expected);
}

#[test]
fn what_does_not_print_is_replaced() {
    shows(
        "main:\n  \u{1b}[31m\n  halt\n",
        "x:2:3: error: expected an instruction, or a label and ':', found '\\u{1b}'
    2 |   \u{fffd}[31m
      |   ^
",
    );
}
