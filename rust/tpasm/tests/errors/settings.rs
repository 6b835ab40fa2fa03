//! Settings.

use crate::refused;
use tpasm::assemble;

#[test]
fn an_unknown_setting() {
    refused(
        "place 2\n",
        "1:1: expected a setting (reg, version, places, interval, set or words) or a label and ':', \
         found 'place'",
    );
}

#[test]
fn a_setting_after_the_first_block() {
    refused(
        "main:\n  halt\nplaces 2\n",
        "3:1: expected a label, since 'halt' ends the block, \
         found 'places'; settings stand before the first block",
    );
    refused(
        "main:\n  words 2\n",
        "2:3: expected an instruction, or a label and ':', \
         found 'words'; settings stand before the first block",
    );
}

#[test]
fn places() {
    for number in ["0", "3", "128", "-1", "65536"] {
        refused(
            &format!("places {}", number),
            &format!("1:8: expected 1, 2, 4, 8, 16, 32 or 64, found '{}'", number),
        );
    }
    refused(
        "places\n",
        "1:7: expected 1, 2, 4, 8, 16, 32 or 64, found the end of the line",
    );
}

#[test]
fn two_in_one() {
    refused(
        "places 2 interval 8\n",
        "1:10: expected ';' or the end of the line, found 'interval'",
    );
    refused(
        "reg a = r0 b = r1\n",
        "1:12: expected ',', ';' or the end of the line, found 'b'",
    );
}

#[test]
fn interval() {
    for number in ["1", "7", "65536", "-8"] {
        refused(
            &format!("interval {}", number),
            &format!("1:10: expected 0 or 8 to 65535, found '{}'", number),
        );
    }
}

#[test]
fn version() {
    for number in ["0", "3", "-1", "65537"] {
        refused(
            &format!("version {}", number),
            &format!("1:9: expected 1 or 2, found '{}'", number),
        );
    }
    refused(
        "version\n",
        "1:8: expected 1 or 2, found the end of the line",
    );
    refused("version two\n", "1:9: expected 1 or 2, found 'two'");
    refused(
        "version 1; version 2\n",
        "1:12: expected one 'version' line, found a second",
    );
}

#[test]
fn twice() {
    refused(
        "places 2\nplaces 2\n",
        "2:1: expected one 'places' line, found a second",
    );
    refused(
        "interval 0; interval 8\n",
        "1:13: expected one 'interval' line, found a second",
    );
    refused(
        "reg a = r3\nset a = 1, r3 = 2\n",
        "2:12: expected each register set once, found r3 again, as 'r3'",
    );
}

#[test]
fn set() {
    refused(
        "set b = 1\n",
        "1:5: expected a register, found 'b', which names no register and no block",
    );
    refused("set r0 1\n", "1:8: expected '=', found '1'");
    refused("set r0 = r1\n", "1:10: expected an integer, found 'r1'");
    refused(
        "set r0 = 1 r1 = 2\n",
        "1:12: expected ',', ';' or the end of the line, found 'r1'",
    );
}

#[test]
fn words() {
    refused(
        "words\n",
        "1:6: expected an integer, found the end of the line",
    );
    refused("words 1, 2, x\n", "1:13: expected an integer, found 'x'");
    refused(
        "words 1.5\n",
        "1:8: expected an integer, ',', ';' or the end of the line, found '.'",
    );
    refused(
        "words 1 -\n",
        "1:10: expected digits, found the end of the line",
    );
}

#[test]
fn too_many_words() {
    let most = format!("words{}\n", " 7".repeat(4096));
    assert!(assemble(format!("{}main: halt\n", most).as_bytes()).is_ok());
    refused(
        &format!("{}words 8\n", most),
        "2:7: expected at most 4096 words, found one more",
    );
}
