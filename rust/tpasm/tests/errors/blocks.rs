//! Blocks.

use crate::refused;
use tpasm::assemble;

/// This many blocks of this many instructions each, one a line.
fn blocks(count: usize, instructions: usize) -> String {
    let code = format!("{}halt\n", "r0 := 1\n".repeat(instructions - 1));
    (0..count).map(|n| format!("x{}: {}", n, code)).collect()
}

#[test]
fn too_many_blocks() {
    assert!(assemble(blocks(128, 8).as_bytes()).is_ok());
    refused(
        &blocks(129, 1),
        "129:1: expected at most 128 blocks, found one more",
    );
}

#[test]
fn too_many_instructions() {
    assert!(assemble(blocks(1, 1024).as_bytes()).is_ok());
    refused(
        &blocks(1, 1025),
        "1025:1: expected at most 1024 instructions, found one more",
    );
}

#[test]
fn empty() {
    refused(
        "main:\nexit:\n  halt\n",
        "2:1: expected an instruction in block 'main', found the label 'exit'",
    );
    refused(
        "main:\n",
        "2:1: expected an instruction in block 'main', found the end of the file",
    );
}

#[test]
fn without_an_end() {
    let expected = "expected 'jump', 'halt' or 'join' to end block 'main'";
    refused(
        "main:\n  r0 := 1\nexit:\n  halt\n",
        &format!("3:1: {}, found the label 'exit'", expected),
    );
    refused(
        "main:\n  r0 := 1",
        &format!("2:10: {}, found the end of the file", expected),
    );
}

#[test]
fn going_on_after_its_end() {
    for end in ["jump main", "halt", "join r0"] {
        let word = end.split(' ').next().unwrap();
        refused(
            &format!("main:\n  {}\n  r0 := 1\n", end),
            &format!(
                "3:3: expected a label, since '{}' ends the block, found the register 'r0'",
                word
            ),
        );
    }
}
