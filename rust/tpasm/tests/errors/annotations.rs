//! Annotations.

use crate::{annotated, refused};

#[test]
fn unknown() {
    refused(
        &annotated("[prpt comb]"),
        "1:8: expected 'prppt', 'jtppt' or '.', found 'prpt'",
    );
    refused(&annotated("[.;]"), "1:9: expected ']', found ';'");
}

#[test]
fn no_handler() {
    let expected = "expected the label of a handler block";
    refused(
        &annotated("[prppt]"),
        &format!("1:13: {}, found ']'", expected),
    );
    refused(
        &annotated("[prppt r1]"),
        &format!("1:14: {}, found the register 'r1'", expected),
    );
    refused(
        &annotated("[prppt com]"),
        &format!(
            "1:14: {}, found 'com', which names no register and no block",
            expected
        ),
    );
}

#[test]
fn no_policy() {
    refused(
        &annotated("[jtppt comm; ; comb]"),
        "1:14: expected 'assoc' or 'assoc-comm', found 'comm'",
    );
    refused(
        &annotated("[jtppt assoc, ; comb]"),
        "1:19: expected ';', found ','",
    );
}

#[test]
fn no_combining_block() {
    refused(
        &annotated("[jtppt assoc; r0 -> r1; 3]"),
        "1:31: expected the label of a combining block, found '3'",
    );
}

#[test]
fn pairs() {
    refused(
        &annotated("[jtppt assoc; comb]"),
        "1:21: expected a register of the child, or ';', found the label 'comb'",
    );
    refused(
        &annotated("[jtppt assoc; r0 := r1; comb]"),
        "1:24: expected '->', found ':='",
    );
    refused(
        &annotated("[jtppt assoc; r0 -> 1; comb]"),
        "1:27: expected a target register, found '1'",
    );
    refused(
        &annotated("[jtppt assoc; r0 -> r1 r2 -> r3; comb]"),
        "1:30: expected ',' or ';', found 'r2'",
    );
}

#[test]
fn a_target_twice() {
    refused(
        &annotated("[jtppt assoc; r0 -> r2, r1 -> r2; comb]"),
        "1:37: expected each target once, found r2 again, as 'r2'",
    );
}

/// An annotation with pairs for so many targets.
fn with_pairs(count: usize) -> String {
    let pairs: Vec<String> = (0..count).map(|n| format!("r0 -> r{}", n)).collect();
    annotated(&format!("[jtppt assoc; {}; comb]", pairs.join(", ")))
}

#[test]
fn nine_pairs() {
    for count in 9..12 {
        refused(
            &with_pairs(count),
            "1:101: expected at most 8 pairs, found one more",
        );
    }
}

#[test]
fn five_pairs_in_version_1() {
    refused(
        &format!("\nversion 1\n{}", with_pairs(5)),
        "3:61: expected at most 4 pairs in version 1, as line 2 says, found one more",
    );
}

#[test]
fn over_two_lines() {
    refused(
        "exit:\n  [prppt exit]\n  halt\n",
        "2:3: expected an instruction, or a label and ':', \
         found '['; an annotation stands on the line of its label",
    );
    refused(
        &annotated("[jtppt assoc;\n r0 -> r1; comb]"),
        "1:20: expected a register of the child, or ';', found the end of the line",
    );
}
