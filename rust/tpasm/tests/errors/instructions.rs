//! Instructions.

use crate::{block, refused, refused_first};

#[test]
fn unknown() {
    refused(&block("goto main"), "2:3: no such instruction: 'goto'");
    refused(
        &block("main"),
        "2:3: expected an instruction, or a label and ':', found the label 'main'",
    );
    refused(
        &block("12"),
        "2:3: expected an instruction, or a label and ':', found '12'",
    );
}

#[test]
fn no_register_to_assign() {
    refused(
        &block("x := 1"),
        "2:3: expected a register, found 'x', which names no register and no block",
    );
    refused(
        &block("main := 1"),
        "2:3: expected a register, found the label 'main'",
    );
    refused(
        &block("word 1"),
        "2:3: expected 'REGISTER :=' before 'word', found 'word'",
    );
}

#[test]
fn no_assignment() {
    refused(&block("r0 = r0 + 1"), "2:6: expected ':=', found '='");
}

#[test]
fn no_operand() {
    let expected = "expected a register, a label or an integer";
    refused_first(
        &block("jump"),
        &format!("2:7: {}, found the end of the line", expected),
    );
    refused(
        &block("r0 := r1 +"),
        &format!("2:13: {}, found the end of the line", expected),
    );
    refused(
        &block("r0 := r1 = = 2"),
        &format!("2:14: {}, found '='", expected),
    );
    refused(
        &block("r0 := word jump"),
        &format!("2:14: {}, found the instruction 'jump'", expected),
    );
    refused(
        &block("r0 :="),
        "2:8: expected a register, a label, an integer, 'word' or 'jralloc', \
         found the end of the line",
    );
}

#[test]
fn no_register_on_the_left() {
    refused(
        &block("r0 := -1 + r1"),
        "2:9: expected a register to the left of '+', found '-1'",
    );
    refused(
        &block("r0 := main < r1"),
        "2:9: expected a register to the left of '<', found the label 'main'",
    );
}

#[test]
fn no_register_to_test_or_fork_by() {
    refused(
        &block("if-jump 0, main"),
        "2:11: expected a register, found '0'",
    );
    refused(
        &block("fork main, main"),
        "2:8: expected a register, found the label 'main'",
    );
    refused(&block("fork r1 main"), "2:11: expected ',', found 'main'");
}

#[test]
fn an_integer_beyond_64_bits() {
    let expected = "expected an integer from -9223372036854775808 to 9223372036854775807";
    for integer in [
        "9223372036854775808",
        "-9223372036854775809",
        "100000000000000000000000000000000000000000",
    ] {
        refused(
            &block(&format!("r0 := {}", integer)),
            &format!("2:9: {}, found '{}'", expected, integer),
        );
    }
}

#[test]
fn not_a_decimal_integer() {
    refused(
        &block("r0 := 0x10"),
        "2:9: expected a register, a label, an integer, 'word' or 'jralloc', found '0x10'",
    );
    refused(&block("r0 := - r1"), "2:11: expected digits, found 'r1'");
}

#[test]
fn two_in_one() {
    refused(
        &block("r0 := 1 r1 := 2"),
        "2:11: expected ';' or the end of the line, found 'r1'",
    );
    refused(
        &block("r0 := r1 + r2 + r3"),
        "2:17: expected ';' or the end of the line, found '+'",
    );
}

#[test]
fn push_and_pop() {
    let operand = "a register, a label or an integer";
    refused(
        &block("push"),
        &format!("2:7: expected {}, found the end of the line", operand),
    );
    refused(
        &block("push none"),
        &format!(
            "2:8: expected {}, found 'none', which names no register and no block",
            operand
        ),
    );
    refused(
        &block("pop"),
        "2:6: expected a register, found the end of the line",
    );
    refused(&block("pop 3"), "2:7: expected a register, found '3'");
    refused(
        &block("pop main"),
        "2:7: expected a register, found the label 'main'",
    );
    refused(
        &block("pop r1, r2"),
        "2:9: expected ';' or the end of the line, found ','",
    );
    // They end no block.
    refused(
        "main:\n  pop r1\n",
        "3:1: expected 'jump', 'halt' or 'join' to end block 'main', found the end of the file",
    );
}

#[test]
fn push_and_pop_in_version_1() {
    for instruction in ["push 1", "pop r1"] {
        let word = instruction.split(' ').next().unwrap();
        refused(
            &format!(
                "// for a card of the first kind\nversion 1\n{}",
                block(instruction)
            ),
            &format!(
                "4:3: expected an instruction of version 1, as line 2 says, found '{}'",
                word
            ),
        );
    }
}
