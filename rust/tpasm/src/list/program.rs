//! A program's blocks and instructions as text.

use super::line::Line;
use crate::names::Names;
use crate::notation::{self, Form, INTEGER, LABEL, POLICIES, REGISTER};
use model::{block_bytes, Block, Instruction, Program, HEADER_BYTES, INSTRUCTION_BYTES, MARK};
use std::borrow::Cow;

/// How many blocks and instructions there are, in words.
pub fn counts(program: &Program) -> String {
    let several = |count: usize, name| {
        let plural = if count == 1 { "" } else { "s" };
        format!("{} {}{}", count, name, plural)
    };
    format!(
        "{} and {}",
        several(program.blocks.len(), "block"),
        several(program.instructions.len(), "instruction")
    )
}

/// The version, of an image that stands in the file at `at`.
pub fn version_line(program: &Program, at: usize) -> Line {
    let text = format!("version {}", program.version);
    Line::at(text, "", at + MARK.len(), &program.version.to_le_bytes())
}

/// The image of the program stands in the file at `at`.
pub fn lines(program: &Program, image: &[u8], at: usize) -> Vec<Line> {
    let names = Names::numbered(program.blocks.len());
    let block_bytes = block_bytes(program.version);
    let blocks_end = HEADER_BYTES + block_bytes * program.blocks.len();
    let record = |offset: usize, length: usize| (at + offset, &image[offset..offset + length]);
    let mut lines = Vec::new();
    for (number, block) in program.blocks.iter().enumerate() {
        let (offset, bytes) = record(HEADER_BYTES + block_bytes * number, block_bytes);
        let text = format!("{}:{}", names.block(number), annotation(block));
        lines.push(Line::at(text, &format!("block {}", number), offset, bytes));
        let first = usize::from(block.first);
        let end = match program.blocks.get(number + 1) {
            Some(next) => next.first.into(),
            None => program.instructions.len(),
        };
        for (number, instruction) in (first..end).zip(&program.instructions[first..end]) {
            let offset = blocks_end + INSTRUCTION_BYTES * number;
            let (offset, bytes) = record(offset, INSTRUCTION_BYTES);
            let text = format!("  {}", written(instruction, &names));
            lines.push(Line::at(text, &number.to_string(), offset, bytes));
        }
    }
    lines
}

fn annotation(block: &Block) -> String {
    if block.is_promotion_ready() {
        return format!(" [{} b{}]", notation::PROMOTION_READY, block.label);
    }
    if !block.is_join_target() {
        return String::new();
    }
    let pairs = block.register_pairs();
    let pairs: Vec<String> = pairs
        .map(|(child, target)| format!("r{} -> r{}", child, target))
        .collect();
    format!(
        " [{} {}; {}; b{}]",
        notation::JOIN_TARGET,
        POLICIES[usize::from(block.policy)],
        pairs.join(", "),
        block.label
    )
}

/// An instruction as it is written, of a program that its questions were put to.
pub fn written(instruction: &Instruction, names: &Names) -> String {
    let row = notation::of_opcode(instruction.opcode).expect("the reader has asked question 8");
    let (r, s) = (names.register(instruction.r), names.register(instruction.s));
    let v = operand(instruction, names);
    match row.form {
        Form::Move => format!("{} := {}", r, v),
        Form::Operation => format!("{} := {} {} {}", r, s, row.text, v),
        Form::Result => format!("{} := {} {}", r, row.text, v),
        Form::Two => format!("{} {}, {}", row.text, s, v),
        Form::One => format!("{} {}", row.text, v),
        Form::Into => format!("{} {}", row.text, r),
        Form::Alone => row.text.to_string(),
    }
}

fn operand<'a>(instruction: &Instruction, names: &'a Names) -> Cow<'a, str> {
    let number = instruction.operand;
    match instruction.kind {
        REGISTER => names.register(number as u8),
        LABEL => names.block(number as usize).into(),
        INTEGER => (number as i64).to_string().into(),
        _ => "".into(),
    }
}
