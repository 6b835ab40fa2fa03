//! What is written so elsewhere.

use crate::{instruction_shows, shows};

#[test]
fn comparisons() {
    instruction_shows(
        "total := total == 3",
        "18: error: expected an operator, ';' or the end of the line, found '=='
      |                  ^^
      hint: equality is written '=', and gives 0 when true
",
    );
    instruction_shows(
        "total := total > 3",
        "18: error: expected an operator, ';' or the end of the line, found '>'
      |                  ^
      hint: there is no '>': exchange the two sides and write '<'
",
    );
    instruction_shows(
        "total := total >= 3",
        "18: error: expected an operator, ';' or the end of the line, found '>='
      |                  ^^
      hint: there is no '>=': compare with '<', then turn the result round, 't := t = 1'
",
    );
    instruction_shows(
        "total := total != 3",
        "18: error: expected an operator, ';' or the end of the line, found '!='
      |                  ^^
      hint: there is no '!=': compare with '=', then turn the result round, 't := t = 1'
",
    );
}

#[test]
fn integers() {
    instruction_shows(
        "total := 0xff",
        "12: error: expected a register, a label, an integer, 'word' or 'jralloc', found '0xff'
      |            ^^^^
      hint: integers are decimal: 255
",
    );
    instruction_shows(
        "total := total + 1_000",
        "20: error: expected a register, a label or an integer, found '1_000'
      |                    ^^^^^
      hint: an integer has digits alone: 1000
",
    );
    instruction_shows(
        "total := #7",
        "12: error: expected a register, a label, an integer, 'word' or 'jralloc', found '#7'
      |            ^^
      hint: an integer is written without '#': 7
",
    );
}

#[test]
fn comments() {
    instruction_shows(
        "total := 1 # loop: jump total",
        "14: error: expected ';' or the end of the line, found '#'
      |              ^
      hint: a comment begins with '//' and ends with its line
",
    );
    instruction_shows(
        "total := 1 /* one */",
        "14: error: expected ';' or the end of the line, found '/*'
      |              ^^
      hint: a comment begins with '//' and ends with its line
",
    );
    shows(
        "/* The sum\n   of: all; == */\nmain:\n  halt\n",
        "\
x:1:1: error: expected a setting (reg, version, places, interval, set or words) or a label and ':', found '/*'
    1 | /* The sum
      | ^^
      hint: a comment begins with '//' and ends with its line
",
    );
    instruction_shows(
        "total := 1 ; the first",
        "16: error: no such instruction: 'the'
      |                ^^^
      hint: ';' ends an instruction; a comment begins with '//'
",
    );
}

#[test]
fn words() {
    for (instruction, width, hint) in [
        ("HALT", 4, "letter case counts: write 'halt'"),
        (
            "If-Jump total, loop",
            7,
            "letter case counts: write 'if-jump'",
        ),
        ("mov total, 1", 3, "a move is written 'r0 := 1'"),
        ("MOV total, 1", 3, "a move is written 'r0 := 1'"),
        ("add total, 1", 3, "an operation is written 'r0 := r1 + 2'"),
        (
            "ifjump total, loop",
            6,
            "write 'if-jump r0, LABEL', which jumps when r0 is 0",
        ),
        (
            "if jump total, loop",
            2,
            "write 'if-jump r0, LABEL', which jumps when r0 is 0",
        ),
        ("goto loop", 4, "write 'jump LABEL'"),
        ("jmp loop", 3, "write 'jump LABEL'"),
        ("sync", 4, "write 'join r0', where r0 holds a join record"),
        ("fokr jr, loop", 4, "did you mean 'fork'?"),
    ] {
        let word = &instruction[..width];
        let about = format!(
            "3: error: no such instruction: '{}'\n      |   {}\n      hint: {}\n",
            word,
            "^".repeat(width),
            hint
        );
        instruction_shows(instruction, &about);
    }
}

#[test]
fn assignments() {
    instruction_shows(
        "total = 1",
        "9: error: expected ':=', found '='
      |         ^
      hint: a value is assigned with ':='; '=' compares
",
    );
    instruction_shows(
        "total += 1",
        "9: error: expected ':=', found '+='
      |         ^^
      hint: write it out, as in 'r0 := r0 + 1'
",
    );
    instruction_shows(
        "total := total \u{2212} 1",
        "18: error: expected an operator, ';' or the end of the line, found '\u{2212}'
      |                  ^
      hint: write '-'
",
    );
}

#[test]
fn subroutines() {
    instruction_shows(
        "call loop",
        "3: error: no such instruction: 'call'
      |   ^^^^
      hint: push the label to come back to and jump: 'push back; jump LABEL'
",
    );
    instruction_shows(
        "ret",
        "3: error: no such instruction: 'ret'
      |   ^^^
      hint: write 'pop r0; jump r0' in a subroutine, 'join r0' in a side of a fork, 'halt' at the end
",
    );
    instruction_shows(
        "total := pop",
        "12: error: expected a register, a label, an integer, 'word' or 'jralloc', found the instruction 'pop'
      |            ^^^
      hint: a value is popped with 'pop r0'
",
    );
}

#[test]
fn a_version_that_is_too_low() {
    shows(
        "version 1\nmain:\n  push main\n  halt\n",
        "\
x:3:3: error: expected an instruction of version 1, as line 1 says, found 'push'
    3 |   push main
      |   ^^^^
      hint: 'push' and 'pop' are instructions of version 2: write 'version 2' in line 1, or leave that line out
",
    );
    shows(
        "version 1\nx: [jtppt assoc; r0->r0,r0->r1,r0->r2,r0->r3,r0->r4; x] halt\n",
        "\
x:2:46: error: expected at most 4 pairs in version 1, as line 1 says, found one more
    2 | x: [jtppt assoc; r0->r0,r0->r1,r0->r2,r0->r3,r0->r4; x] halt
      |                                              ^^
      hint: up to 8 are of version 2: write 'version 2' in line 1, or leave that line out
",
    );
}
