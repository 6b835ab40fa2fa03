//! How each opcode is written, for assembler and disassembler alike.

use model::opcode;

#[derive(Clone, Copy, Debug, PartialEq, Eq)]
pub enum Form {
    /// `r := v`
    Move,
    /// `r := s OPERATOR v`
    Operation,
    /// `r := WORD v`
    Result,
    /// `WORD s, v`
    Two,
    /// `WORD v`
    One,
    /// `WORD r`
    Into,
    /// `WORD`
    Alone,
}

#[derive(Clone, Copy, Debug)]
pub struct Row {
    pub opcode: u8,
    pub text: &'static str,
    pub form: Form,
}

const fn row(opcode: u8, text: &'static str, form: Form) -> Row {
    Row { opcode, text, form }
}

/// In the order of the opcodes, from 1 on.
const ROWS: [Row; 17] = [
    row(opcode::MOVE, ":=", Form::Move),
    row(opcode::ADD, "+", Form::Operation),
    row(opcode::SUBTRACT, "-", Form::Operation),
    row(opcode::MULTIPLY, "*", Form::Operation),
    row(opcode::DIVIDE, "/", Form::Operation),
    row(opcode::REMAINDER, "%", Form::Operation),
    row(opcode::LESS, "<", Form::Operation),
    row(opcode::EQUAL, "=", Form::Operation),
    row(opcode::WORD, "word", Form::Result),
    row(opcode::IF_JUMP, "if-jump", Form::Two),
    row(opcode::JRALLOC, "jralloc", Form::Result),
    row(opcode::FORK, "fork", Form::Two),
    row(opcode::JUMP, "jump", Form::One),
    row(opcode::HALT, "halt", Form::Alone),
    row(opcode::JOIN, "join", Form::One),
    row(opcode::PUSH, "push", Form::One),
    row(opcode::POP, "pop", Form::Into),
];

/// The instructions' words.
pub const WORDS: [&str; 9] = [
    "word", "if-jump", "jralloc", "fork", "jump", "halt", "join", "push", "pop",
];

/// The policies, each at its number.
pub const POLICIES: [&str; 2] = ["assoc", "assoc-comm"];

pub const PROMOTION_READY: &str = "prppt";
pub const JOIN_TARGET: &str = "jtppt";
pub const ANNOTATIONS: [&str; 2] = [PROMOTION_READY, JOIN_TARGET];

/// Annotation numbers of a block record.
pub const PROMOTION_READY_NUMBER: u8 = 1;
pub const JOIN_TARGET_NUMBER: u8 = 2;

/// Operand kinds of an instruction record.
pub const ABSENT: u8 = 0;
pub const REGISTER: u8 = 1;
pub const LABEL: u8 = 2;
pub const INTEGER: u8 = 3;

pub fn of_opcode(opcode: u8) -> Option<&'static Row> {
    ROWS.iter().find(|row| row.opcode == opcode)
}

/// The row of an operator's mark or of an instruction's word.
pub fn of_text(text: &str) -> Option<&'static Row> {
    ROWS.iter().find(|row| row.text == text)
}

/// Whether it writes its register r.
pub fn writes_register(opcode: u8) -> bool {
    let form = of_opcode(opcode).map(|row| row.form);
    matches!(
        form,
        Some(Form::Move | Form::Operation | Form::Result | Form::Into)
    )
}

/// Jump, halt and join.
pub fn ends_block(opcode: u8) -> bool {
    matches!(opcode, opcode::JUMP | opcode::HALT | opcode::JOIN)
}
