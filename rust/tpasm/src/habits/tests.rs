//! Numbers in other notations, and words that are no instruction.

use super::*;

#[test]
fn numbers_in_decimal() {
    let decimal = |text| of_mark(text).unwrap();
    assert_eq!(decimal("0xff"), "integers are decimal: 255");
    assert_eq!(decimal("0XFF"), "integers are decimal: 255");
    assert_eq!(decimal("0b101"), "integers are decimal: 5");
    assert_eq!(decimal("0o17"), "integers are decimal: 15");
    assert_eq!(decimal("0xffff_ffff_ffff_ffff"), "integers are decimal: -1");
    assert_eq!(decimal("0x10000000000000000"), "integers are decimal");
    assert_eq!(decimal("0xyz"), "integers are decimal");
    assert_eq!(decimal("0x"), "integers are decimal");
    assert_eq!(decimal("1_000"), "an integer has digits alone: 1000");
    assert_eq!(decimal("2nd"), "a name begins with a letter or '_'");
    assert_eq!(decimal("#12"), "an integer is written without '#': 12");
}

#[test]
fn assignments_with_an_operator() {
    assert_eq!(of_mark("+=").unwrap(), "write it out, as in 'r0 := r0 + 1'");
    assert_eq!(of_mark("%=").unwrap(), "write it out, as in 'r0 := r0 % 1'");
}

#[test]
fn other_marks_have_none() {
    for mark in ["@", "$", "é", "\u{0}", ""] {
        assert_eq!(of_mark(mark), None);
    }
}

#[test]
fn words() {
    assert_eq!(of_instruction("mov"), Some("a move is written 'r0 := 1'"));
    assert_eq!(of_instruction("MOV"), of_instruction("mov"));
    assert_eq!(of_instruction("goto"), Some("write 'jump LABEL'"));
    assert_eq!(of_instruction("frob"), None);
}
