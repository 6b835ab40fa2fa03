//! Several errors: each once, in order of place, at most twenty.

use crate::{shown, shows};
use tpasm::assemble;

#[test]
fn several_errors_in_order() {
    shows(
        "\
reg total = r0, few = r16
places 3
places 2; set few = 1, totl = 4

main:
  few := total == 1
  jump lop
loop: [prppt]
  halt
  total := 1
loop:
  total := 2
",
        "\
x:1:23: error: expected r0 to r15, found 'r16' (the registers are r0 to r15)
    1 | reg total = r0, few = r16
      |                       ^^^
x:2:8: error: expected 1, 2, 4, 8, 16, 32 or 64, found '3'
    2 | places 3
      |        ^
x:3:24: error: expected a register, found 'totl', which names no register and no block
    3 | places 2; set few = 1, totl = 4
      |                        ^^^^
      hint: did you mean 'total'?
x:6:16: error: expected an operator, ';' or the end of the line, found '=='
    6 |   few := total == 1
      |                ^^
      hint: equality is written '=', and gives 0 when true
x:7:8: error: expected a register, a label or an integer, \
found 'lop', which names no register and no block
    7 |   jump lop
      |        ^^^
      hint: did you mean 'loop'?
x:8:13: error: expected the label of a handler block, found ']'
    8 | loop: [prppt]
      |             ^
x:10:3: error: expected a label, since 'halt' ends the block, found the register 'total'
   10 |   total := 1
      |   ^^^^^
x:11:1: error: expected a new name for a block, found 'loop' again, as in line 8
   11 | loop:
      | ^^^^
x:13:1: error: expected 'jump', 'halt' or 'join' to end block 'loop', found the end of the file
   13 |
      | ^
",
    );
}

/// A source has errors in these lines alone.
#[track_caller]
fn errors_in(source: &str, expected: &[usize]) {
    let errors = assemble(source.as_bytes()).unwrap_err();
    let lines: Vec<usize> = errors
        .iter()
        .map(|error| error.span.position.line)
        .collect();
    assert_eq!(lines, expected, "{}", shown(source.as_bytes()));
}

#[test]
fn a_name_that_was_declared_badly_may_be_used() {
    errors_in(
        "reg a = r16\nset a = 1\nmain:\n  a := a + 1\n  halt\n",
        &[1],
    );
    errors_in("reg a r1, b\nmain:\n  a := b\n  halt\n", &[1]);
    errors_in("regs a = r1\nmain:\n  a := 1\n  halt\n", &[1]);
    errors_in("reg a = r0, b = r0\nset a = 1, b = 2\nmain: halt\n", &[1]);
    let pairs = "reg a = r16, b = r17\nmain: [jtppt assoc; r0 -> a, r0 -> b; main]\n  halt\n";
    errors_in(pairs, &[1]);
}

#[test]
fn other_names_are_not_declared_so() {
    errors_in("set a = 1\nmain:\n  a := 1\n  halt\n", &[1, 3]);
    errors_in("reg a = r16\nmain:\n  b := 1\n  halt\n", &[1, 3]);
}

#[test]
fn a_last_instruction_with_an_error() {
    errors_in("main:\n  goto main\nx:\n  jump\ny:\n  HALT\n", &[2, 4, 6]);
    errors_in("main:\n  r0 := ?\nx:\n  halt\n", &[2, 3]);
    errors_in("main:\n  x := 1\ny:\n  halt\n", &[2, 3]);
}

#[test]
fn a_block_that_goes_on_after_its_end() {
    errors_in(
        "main:\n  halt\n  r0 := 1\n  r0 := 2\n  halt\nx:\n  halt\n",
        &[3],
    );
    errors_in("main:\n  halt\n  places 2\n  halt\n", &[3]);
    errors_in("main:\n  halt\n  [jtppt assoc; r0 -> r1; main]\n", &[3]);
}

#[test]
fn instructions_before_the_first_label() {
    let source = "places 2\n  r0 := 1\n  if-jump r0, x\n  frob\n  halt\n";
    errors_in(source, &[2]);
    errors_in(&format!("{}interval 7\nx: halt\n", source), &[2, 6]);
    shows(
        source,
        "\
x:2:3: error: expected a setting (reg, version, places, interval, set or words) or a label and ':', \
found 'r0'
    2 |   r0 := 1
      |   ^^
      hint: an instruction stands in a block: begin one with 'main:'
",
    );
}

#[test]
fn annotations() {
    errors_in("main: [jtppt assoc;\n  r0 -> r1; main]\n  halt\n", &[1]);
    errors_in("main: [prppt\n  r0 := 1\n  halt\n", &[1]);
    errors_in("main: [jtppt comm; r0 := r1; main] halt\n", &[1]);
    let again = "r0 -> r1, r2 -> r1";
    errors_in(
        &format!("x: [jtppt assoc; {}; y]\n  halt\n", again),
        &[1, 1],
    );
}

#[test]
fn a_label_in_the_midst_of_a_line() {
    errors_in("places 2 main: halt\n", &[1]);
    errors_in("main: r0 := 1 x: halt\n", &[1, 1]);
}

#[test]
fn too_many_is_said_once() {
    let words = format!("words{}\nwords 1\nmain: halt\n", " 7".repeat(4098));
    errors_in(&words, &[1]);
    let blocks: String = (0..140).map(|n| format!("x{}: halt\n", n)).collect();
    errors_in(&blocks, &[129]);
    let code = "r0 := 1\n".repeat(1100);
    errors_in(&format!("x:\n{}halt\n", code), &[1026]);
    let pairs: Vec<String> = (1..13).map(|n| format!("r0 -> r{}", n)).collect();
    errors_in(
        &format!("x: [jtppt assoc; {}; x]\n  halt\n", pairs.join(", ")),
        &[1],
    );
}

fn bad_lines(count: usize) -> String {
    format!("main:\n{}  halt\n", "  frob 1\n".repeat(count))
}

#[test]
fn twenty_are_shown() {
    let message = |line: usize| {
        format!(
            "x:{0}:3: error: no such instruction: 'frob'\n{0:>5} |   frob 1\n      |   ^^^^\n",
            line
        )
    };
    let twenty: String = (2..22).map(message).collect();
    shows(&bad_lines(20), &twenty);
    let more = "x: there are more errors; these are the first 20\n";
    for count in [21, 22, 500] {
        shows(&bad_lines(count), &format!("{}{}", twenty, more));
    }
}
