//! One instruction.

use crate::cursor::Parser;
use crate::describe::Fitting;
use crate::message::Message;
use crate::notation::{self, Form, Row, ABSENT, INTEGER, LABEL, REGISTER};
use crate::settings::SETTING_WORDS;
use crate::token::{Kind, Token};
use model::{opcode, Instruction};

const INSTRUCTION: &str = "an instruction, or a label and ':'";
const OPERAND: &str = "a register, a label or an integer";
const POP: &str = "pop";
const MOVED: &str = "a register, a label, an integer, 'word' or 'jralloc'";

/// An operand v.
#[derive(Clone, Copy)]
enum Operand {
    Register(u8),
    Label(usize),
    Integer(i64),
}

/// An instruction with the fields that it has.
fn record(opcode: u8, r: u8, s: u8, v: Option<Operand>) -> Instruction {
    let (kind, operand) = match v {
        None => (ABSENT, 0),
        Some(Operand::Register(number)) => (REGISTER, number.into()),
        Some(Operand::Label(number)) => (LABEL, number as u64),
        Some(Operand::Integer(integer)) => (INTEGER, integer as u64),
    };
    Instruction {
        opcode,
        r,
        s,
        kind,
        operand,
    }
}

impl<'a> Parser<'a> {
    /// An instruction and the end of its line, or a `;`.
    pub fn instruction(&mut self) -> Result<Instruction, Message> {
        let instruction = self.instruction_alone()?;
        let may_go_on = instruction.opcode == opcode::MOVE && instruction.kind == REGISTER;
        self.expect_end(if may_go_on { "an operator, " } else { "" })?;
        Ok(instruction)
    }

    fn instruction_alone(&mut self) -> Result<Instruction, Message> {
        let first = self.peek();
        if first.kind != Kind::Name {
            return Err(self.misplaced(INSTRUCTION));
        }
        if let Some(row) = notation::of_text(first.text) {
            return self.worded(row);
        }
        if self.find_register(first.text).is_some() {
            return self.assignment();
        }
        if self.peek_second().is(":=") || self.peek_second().is("=") {
            return Err(self.misused(first, "a register", Fitting::REGISTERS));
        }
        let has_meaning = SETTING_WORDS.contains(&first.text)
            || self.is_taken(first.text)
            || self.labels.find(first.text).is_some();
        Err(if has_meaning {
            self.misplaced(INSTRUCTION)
        } else {
            self.no_instruction()
        })
    }

    /// An instruction that begins with its word.
    fn worded(&mut self, row: &Row) -> Result<Instruction, Message> {
        if row.form == Form::Result {
            return Err(self.unexpected(format!("'REGISTER :=' before '{}'", row.text)));
        }
        let word = self.next();
        self.check_version(word, row.opcode);
        let (r, s, v) = match row.form {
            Form::Two => {
                let s = self.register("a register")?;
                self.expect(",", "','")?;
                (0, s, Some(self.operand()?))
            }
            Form::One => (0, 0, Some(self.operand()?)),
            Form::Into => (self.register("a register")?, 0, None),
            _ => (0, 0, None),
        };
        Ok(record(row.opcode, r, s, v))
    }

    /// `r := ..`
    fn assignment(&mut self) -> Result<Instruction, Message> {
        let r = self.register("a register")?;
        if self.peek().is("=") {
            let hint = "a value is assigned with ':='; '=' compares".to_string();
            return Err(self.unexpected("':='").with_hint(hint));
        }
        self.expect(":=", "':='")?;
        if let Some(row) = self.result_word() {
            self.next();
            return self.result(row, r);
        }
        let left = self.peek();
        let v = self.operand_among(MOVED, Fitting::MOVED);
        let v = v.map_err(|error| match left.text {
            POP => error.with_hint("a value is popped with 'pop r0'".to_string()),
            _ => error,
        })?;
        match self.operator() {
            None => Ok(record(opcode::MOVE, r, 0, Some(v))),
            Some(row) => {
                let s = self.left_register(left, v, row)?;
                self.next();
                self.operation(row, r, s)
            }
        }
    }

    fn result_word(&self) -> Option<&'static Row> {
        notation::of_text(self.peek().text).filter(|row| row.form == Form::Result)
    }

    fn operator(&self) -> Option<&'static Row> {
        notation::of_text(self.peek().text).filter(|row| row.form == Form::Operation)
    }

    /// `r := WORD v`, from v on.
    fn result(&mut self, row: &Row, r: u8) -> Result<Instruction, Message> {
        let first = self.peek();
        let v = self.operand()?;
        if row.opcode == opcode::JRALLOC {
            let span = self.since(first);
            match v {
                Operand::Register(_) => {}
                Operand::Label(number) => self.notes.jralloc(span, Some(number)),
                Operand::Integer(_) => self.notes.jralloc(span, None),
            }
        }
        Ok(record(row.opcode, r, 0, Some(v)))
    }

    /// `r := s OPERATOR v`, from v on.
    fn operation(&mut self, row: &Row, r: u8, s: u8) -> Result<Instruction, Message> {
        let first = self.peek();
        let v = self.operand()?;
        let divides = matches!(row.opcode, opcode::DIVIDE | opcode::REMAINDER);
        if divides && matches!(v, Operand::Integer(0)) {
            self.notes.zero_divisor(self.since(first));
        }
        Ok(record(row.opcode, r, s, Some(v)))
    }

    /// The left side of an operation is a register.
    fn left_register(&self, token: Token<'a>, v: Operand, row: &Row) -> Result<u8, Message> {
        let expected = format!("a register to the left of '{}'", row.text);
        match v {
            Operand::Register(number) => Ok(number),
            Operand::Label(_) => Err(self.misused(token, expected, Fitting::NOTHING)),
            Operand::Integer(integer) => {
                let found = format!("'{}'", integer);
                Err(Message::expected(self.since(token), expected, found))
            }
        }
    }

    fn operand(&mut self) -> Result<Operand, Message> {
        self.operand_among(OPERAND, Fitting::OPERANDS)
    }

    fn operand_among(&mut self, expected: &str, fitting: Fitting) -> Result<Operand, Message> {
        if self.at_integer() {
            return self.integer(expected).map(Operand::Integer);
        }
        if self.find_register(self.peek().text).is_some() {
            return self.register(expected).map(Operand::Register);
        }
        self.label(expected, fitting).map(Operand::Label)
    }
}
