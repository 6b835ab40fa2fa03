//! Blocks: label, annotation, instructions, of which the last and no other ends the block.

use crate::cursor::Parser;
use crate::describe::Fitting;
use crate::message::Message;
use crate::notation;
use crate::origins::Label;
use crate::text::quoted;
use crate::token::{Kind, Token};
use model::{opcode, Block, Instruction, Program, MAX_BLOCKS, MAX_INSTRUCTIONS, VERSION_1};

const NEW_LABEL: &str = "a new name for a block";

/// Stands for an instruction with an error.
const NONE: Instruction = Instruction {
    opcode: opcode::HALT,
    r: 0,
    s: 0,
    kind: notation::ABSENT,
    operand: 0,
};

/// What the instructions of a block have come to.
#[derive(Clone, Copy)]
enum Last<'a> {
    /// There is none yet.
    Missing,
    /// One that does not end the block.
    Open,
    /// One that ends it, by its first token.
    Ended(Token<'a>),
    /// One with an error, which may have been meant to end it.
    Unclear,
}

impl<'a> Parser<'a> {
    /// All blocks, up to the file's end. `has_strays`: instructions stand before the first label.
    pub fn program(&mut self, has_strays: bool) -> Program {
        let mut program = Program {
            version: VERSION_1,
            blocks: Vec::new(),
            instructions: Vec::new(),
        };
        if !self.at_label() && !has_strays {
            let error = self.unexpected("a block, which begins with a label");
            self.report(error);
        }
        while self.at_label() && !self.is_full() {
            self.block(&mut program);
        }
        program.version = self.version_of(&program);
        program
    }

    fn block(&mut self, program: &mut Program) {
        let name = self.next();
        self.check_label(name, program.blocks.len());
        self.origins.blocks.push(Label {
            name: name.text.to_string(),
            position: name.position,
        });
        self.next();
        self.notes.begin_block(program.blocks.len());
        let annotation = self.annotation().unwrap_or_else(|error| {
            self.report(error);
            self.skip_annotation();
            Block::PLAIN
        });
        let first = program.instructions.len() as u16;
        program.blocks.push(Block {
            first,
            ..annotation
        });
        self.instructions(name, program);
    }

    /// A label's name means nothing else, and stands before one block.
    fn check_label(&mut self, name: Token<'a>, block_count: usize) {
        let first = self.labels.find(name.text);
        let line = first.map(|number| self.labels.all()[number].position);
        if self.is_taken(name.text) {
            self.report(self.misused(name, NEW_LABEL, Fitting::NOTHING));
        } else if let Some(earlier) = line.filter(|position| *position != name.position) {
            let found = format!("{} again, as in line {}", name, earlier.line);
            self.report(Message::expected(name, NEW_LABEL, found));
        } else if block_count == MAX_BLOCKS {
            let expected = format!("at most {} blocks", MAX_BLOCKS);
            self.report(Message::expected(name, expected, "one more"));
        }
    }

    fn instructions(&mut self, name: Token<'a>, program: &mut Program) {
        let mut last = Last::Missing;
        loop {
            self.skip_separators();
            if self.is_full() {
                return;
            }
            if self.at_label() || self.peek().kind == Kind::FileEnd {
                return self.check_end(name, last);
            }
            if program.instructions.len() == MAX_INSTRUCTIONS {
                let expected = format!("at most {} instructions", MAX_INSTRUCTIONS);
                self.report(Message::expected(self.peek(), expected, "one more"));
            }
            let first = self.peek();
            let (instruction, now) = self.next_instruction(last);
            program.instructions.push(instruction);
            self.origins.instructions.push(self.statement_since(first));
            last = now;
        }
    }

    /// An instruction or, after an error, what stands for it.
    fn next_instruction(&mut self, last: Last<'a>) -> (Instruction, Last<'a>) {
        let first = self.peek();
        let is_assignment = self.at_instruction();
        let error = if let Last::Ended(ending) = last {
            self.misplaced(format!("a label, since '{}' ends the block", ending.text))
        } else {
            match self.instruction() {
                Ok(instruction) if is_ending(&first) => return (instruction, Last::Ended(first)),
                Ok(instruction) => return (instruction, Last::Open),
                Err(error) => error,
            }
        };
        self.report(error);
        self.skip_statement();
        let now = match last {
            Last::Ended(_) => Last::Unclear,
            _ if is_ending(&first) => Last::Ended(first),
            _ if is_assignment => Last::Open,
            _ => Last::Unclear,
        };
        (NONE, now)
    }

    /// The block's last instruction is there.
    fn check_end(&mut self, name: Token<'a>, last: Last<'a>) {
        let expected = match last {
            Last::Missing => format!("an instruction in block {}", quoted(name.text)),
            Last::Open => format!(
                "'jump', 'halt' or 'join' to end block {}",
                quoted(name.text)
            ),
            Last::Ended(_) | Last::Unclear => return,
        };
        let token = self.peek();
        let found = match token.kind {
            Kind::Name => format!("the label {}", token),
            _ => token.to_string(),
        };
        self.report(Message::expected(token, expected, found));
    }
}

/// Whether the instruction that begins with this token ends its block.
fn is_ending(first: &Token) -> bool {
    notation::of_text(first.text).map_or(false, |row| notation::ends_block(row.opcode))
}
