//! Warnings whole.

use crate::{shown, shows};
use tpasm::assemble;

#[test]
fn jralloc_of_what_is_no_join_target() {
    shows(
        "\
main:
  r1 := jralloc loop
  r1 := jralloc -7
  r1 := jralloc exit
  r1 := jralloc r2
  jump loop
loop: [prppt main]
  jump loop
exit: [jtppt assoc; ; main]
  halt
",
        "\
x:2:17: warning: block 'loop' is no join target: carried out, this ends the task with fault 35
    2 |   r1 := jralloc loop
      |                 ^^^^
      hint: a join target is annotated, 'loop: [jtppt POLICY; PAIRS; COMBINING]'
x:3:17: warning: an integer is no join target: carried out, this ends the task with fault 35
    3 |   r1 := jralloc -7
      |                 ^^
",
    );
}

#[test]
fn a_divisor_of_0() {
    shows(
        "main:\n  r0 := r1 / 0; r0 := r1 % -00\n  r0 := r1 / 1; r0 := r1 * 0\n  halt\n",
        "\
x:2:14: warning: the divisor is 0: carried out, this ends the task with fault 32
    2 |   r0 := r1 / 0; r0 := r1 % -00
      |              ^
x:2:28: warning: the divisor is 0: carried out, this ends the task with fault 32
    2 |   r0 := r1 / 0; r0 := r1 % -00
      |                            ^^^
",
    );
}

#[test]
fn a_block_that_nothing_names() {
    shows(
        "main:\n  halt\nspare:\n  jump main\nloop:\n  jump loop\n",
        "\
x:3:1: warning: no other block names 'spare': it never runs
    3 | spare:
      | ^^^^^
x:5:1: warning: no other block names 'loop': it never runs
    5 | loop:
      | ^^^^
",
    );
}

#[test]
fn in_order_of_place() {
    let source =
        "main: halt\nx:\n  r0 := r0 / 0\n  r1 := jralloc x\n  r0 := r0 % 0\n  halt\ny: halt\n";
    let warnings = assemble(source.as_bytes()).unwrap().warnings;
    let lines: Vec<usize> = warnings
        .iter()
        .map(|warning| warning.span.position.line)
        .collect();
    assert_eq!(lines, [2, 3, 4, 5, 7]);
}

#[test]
fn every_way_to_name_a_block() {
    shows(
        "\
main: [prppt a]
  r0 := b
  if-jump r0, c
  r0 := jralloc d
  fork r0, e
  jump f
a: halt
b: halt
c: halt
d: [jtppt assoc; ; g] halt
e: halt
f: halt
g: halt
",
        "",
    );
}

#[test]
fn none_beside_errors() {
    shows(
        "main:\n  r0 := r0 / 0\n  frob r0\nspare:\n  halt\n",
        "\
x:3:3: error: no such instruction: 'frob'
    3 |   frob r0
      |   ^^^^
",
    );
}

#[test]
fn twenty_are_shown() {
    let blocks: String = (0..30).map(|n| format!("x{}: halt\n", n)).collect();
    let shown = shown(blocks.as_bytes());
    assert_eq!(shown.matches("warning:").count(), 20);
    assert!(shown.ends_with("x: there are more warnings; these are the first 20\n"));
}
