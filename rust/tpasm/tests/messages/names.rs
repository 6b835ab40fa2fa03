//! Names that mean nothing, and the nearest one that does.

use crate::{instruction_shows, shows};

#[test]
fn registers() {
    instruction_shows(
        "total := totl + 1",
        "12: error: expected a register, a label, an integer, 'word' or 'jralloc', \
         found 'totl', which names no register and no block
      |            ^^^^
      hint: did you mean 'total'?
",
    );
    instruction_shows(
        "totla := 1",
        "3: error: expected a register, found 'totla', which names no register and no block
      |   ^^^^^
      hint: did you mean 'total'?
",
    );
    instruction_shows(
        "fork Jr, loop",
        "8: error: expected a register, found 'Jr', which names no register and no block
      |        ^^
      hint: letter case counts: write 'jr'
",
    );
    instruction_shows(
        "R5 := 1",
        "3: error: expected a register, found 'R5', which names no register and no block
      |   ^^
      hint: letter case counts: write 'r5'
",
    );
}

#[test]
fn labels() {
    instruction_shows(
        "if-jump total, lop",
        "18: error: expected a register, a label or an integer, \
         found 'lop', which names no register and no block
      |                  ^^^
      hint: did you mean 'loop'?
",
    );
    shows(
        "main: [prppt handeler]\n  halt\nhandler:\n  jump main\n",
        "\
x:1:14: error: expected the label of a handler block, \
found 'handeler', which names no register and no block
    1 | main: [prppt handeler]
      |              ^^^^^^^^
      hint: did you mean 'handler'?
",
    );
}

#[test]
fn words() {
    instruction_shows(
        "total := wrod 0",
        "12: error: expected a register, a label, an integer, 'word' or 'jralloc', \
         found 'wrod', which names no register and no block
      |            ^^^^
      hint: did you mean 'word'?
",
    );
    shows(
        "place 2\nmain: halt\n",
        "\
x:1:1: error: expected a setting (reg, version, places, interval, set or words) or a label and ':', \
found 'place'
    1 | place 2
      | ^^^^^
      hint: did you mean 'places'?
",
    );
    shows(
        "main: [jtptt asoc; ; main]\n  halt\nexit: [jtppt asoc; ; main]\n  jump exit\n",
        "\
x:1:8: error: expected 'prppt', 'jtppt' or '.', found 'jtptt'
    1 | main: [jtptt asoc; ; main]
      |        ^^^^^
      hint: did you mean 'jtppt'?
x:3:14: error: expected 'assoc' or 'assoc-comm', found 'asoc'
    3 | exit: [jtppt asoc; ; main]
      |              ^^^^
      hint: did you mean 'assoc'?
",
    );
}

#[test]
fn nothing_near() {
    instruction_shows(
        "total := elsewhere",
        "12: error: expected a register, a label, an integer, 'word' or 'jralloc', \
         found 'elsewhere', which names no register and no block
      |            ^^^^^^^^^
",
    );
    instruction_shows(
        "frobnicate total",
        "3: error: no such instruction: 'frobnicate'
      |   ^^^^^^^^^^
",
    );
}

#[test]
fn a_label_without_its_colon() {
    instruction_shows(
        "second",
        "3: error: no such instruction: 'second'
      |   ^^^^^^
      hint: a block begins with its label and ':', 'second:'
",
    );
    shows(
        "main: second\n",
        "\
x:1:7: error: no such instruction: 'second'
    1 | main: second
      |       ^^^^^^
",
    );
}

#[test]
fn long_names_are_cut() {
    let long = "a".repeat(70);
    let about = format!(
        "8: error: expected a register, found '{}...', which names no register and no block
      |        {}
",
        "a".repeat(57),
        "^".repeat(70)
    );
    instruction_shows(&format!("fork {}, loop", long), &about);
    let about = format!(
        "12: error: expected a register, a label, an integer, 'word' or 'jralloc', \
         found 'jr-{}...' (for a difference write spaces: jr - {}...)
      |            {}
",
        "a".repeat(54),
        "a".repeat(57),
        "^".repeat(73)
    );
    instruction_shows(&format!("total := jr-{}", long), &about);
}
