//! What is wrong with a file as a whole.

use crate::{block, refused};
use tpasm::assemble;

#[test]
fn empty() {
    let expected = "expected a block, which begins with a label, found the end of the file";
    refused("", &format!("1:1: {}", expected));
    refused("// nothing\n\n", &format!("3:1: {}", expected));
    refused("places 2\n", &format!("2:1: {}", expected));
}

#[test]
fn not_utf_8() {
    let error = |source: &[u8]| match &assemble(source).unwrap_err()[..] {
        [error] => error.to_string(),
        errors => panic!("{:?}", errors),
    };
    assert_eq!(
        error(b"// \xc3\xa9\n//a\xff\n"),
        "2:4: expected text in UTF-8, found the byte 0xff"
    );
    assert_eq!(
        error(b"\x80"),
        "1:1: expected text in UTF-8, found the byte 0x80"
    );
}

#[test]
fn a_character_outside_the_notation() {
    refused(
        &block("r0 := r1 & r2"),
        "2:12: expected an operator, ';' or the end of the line, found '&'",
    );
    refused(
        &block("@"),
        "2:3: expected an instruction, or a label and ':', found '@'",
    );
}
