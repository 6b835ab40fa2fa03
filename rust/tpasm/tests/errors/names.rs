//! Names of registers and blocks.

use crate::{block, refused, refused_first};

#[test]
fn not_a_new_register_name() {
    let expected = "expected a new name for a register";
    refused(
        "reg a = r0, a = r1\n",
        &format!("1:13: {}, found the register 'a'", expected),
    );
    refused(
        "reg r1 = r0\n",
        &format!("1:5: {}, found the register 'r1'", expected),
    );
    refused(
        "reg r16 = r0\n",
        &format!(
            "1:5: {}, found 'r16' (the registers are r0 to r15)",
            expected
        ),
    );
    refused(
        "reg jump = r0\n",
        &format!("1:5: {}, found the instruction 'jump'", expected),
    );
    refused("reg 1 = r0\n", &format!("1:5: {}, found '1'", expected));
}

#[test]
fn not_an_unnamed_register() {
    refused(
        "reg a = r0\nreg b = r0\n",
        "2:9: expected a register without a name, found 'r0', which 'a' names",
    );
    refused(
        "reg a = r16\n",
        "1:9: expected r0 to r15, found 'r16' (the registers are r0 to r15)",
    );
    refused("reg a = 0\n", "1:9: expected r0 to r15, found '0'");
    refused("reg a r0\n", "1:7: expected '=', found 'r0'");
}

#[test]
fn not_a_new_label() {
    let expected = "expected a new name for a block";
    refused(
        "main:\n  halt\nx:\n  halt\nmain:\n  halt\n",
        &format!("5:1: {}, found 'main' again, as in line 1", expected),
    );
    refused(
        "reg a = r0\na:\n  halt\n",
        &format!("2:1: {}, found the register 'a'", expected),
    );
    refused(
        "r5:\n  halt\n",
        &format!("1:1: {}, found the register 'r5'", expected),
    );
    refused(
        "r16:\n  halt\n",
        &format!(
            "1:1: {}, found 'r16' (the registers are r0 to r15)",
            expected
        ),
    );
    refused(
        "word:\n  halt\n",
        &format!("1:1: {}, found the instruction 'word'", expected),
    );
}

#[test]
fn unknown() {
    refused_first(
        &block("jump nowhere"),
        "2:8: expected a register, a label or an integer, \
         found 'nowhere', which names no register and no block",
    );
    refused(
        &block("r0 := r16"),
        "2:9: expected a register, a label, an integer, 'word' or 'jralloc', \
         found 'r16' (the registers are r0 to r15)",
    );
}

#[test]
fn a_difference_without_spaces() {
    refused(
        &format!("reg a = r0\n{}", block("a := a-1")),
        "3:8: expected a register, a label, an integer, 'word' or 'jralloc', \
         found 'a-1' (for a difference write spaces: a - 1)",
    );
}
