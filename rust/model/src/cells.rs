//! The program buffer: a program in cells of 64 bits, laid out as in docs/image.md.

use crate::image::{check_counts, check_version, Block, Instruction, Program};
use crate::image::{MAX_BLOCKS, MAX_INSTRUCTIONS};
use crate::numbers;

/// Cells before the blocks': version, number of blocks, number of instructions.
const BLOCKS_AT: usize = 3;
const BLOCK_CELLS: usize = 6;
const INSTRUCTIONS_AT: usize = BLOCKS_AT + BLOCK_CELLS * MAX_BLOCKS;
const INSTRUCTION_CELLS: usize = 5;

pub const CELLS: usize = INSTRUCTIONS_AT + INSTRUCTION_CELLS * MAX_INSTRUCTIONS;
/// Length of a program buffer.
pub const BYTES: usize = numbers::BYTES * CELLS;

/// The program of a buffer of any length, or the number of the first of questions 3, 4 and 6 to 9
/// that is answered with no. A version or count that the buffer lacks is 0.
pub fn read(buffer: &[u8]) -> Result<Program, u8> {
    let mut cells = numbers::of(buffer).take(BLOCKS_AT);
    let mut next = || cells.next().unwrap_or(0);
    let version = next().try_into().unwrap_or(u16::MAX);
    check_version(version)?;
    let [block_count, instruction_count] = [count(next()), count(next())];
    check_counts(block_count, instruction_count)?;
    let program = Program {
        version,
        blocks: (0..block_count)
            .map(|number| record(buffer, BLOCKS_AT, BLOCK_CELLS, number))
            .map(|record| record.map_or(LACKING_BLOCK, block))
            .collect(),
        instructions: (0..instruction_count)
            .map(|number| record(buffer, INSTRUCTIONS_AT, INSTRUCTION_CELLS, number))
            .map(|record| record.map_or(LACKING_INSTRUCTION, instruction))
            .collect(),
    };
    program.check_blocks()?;
    program.check_instructions()?;
    Ok(program)
}

/// Writes a program over `buffer`, which has `BYTES`, and 0 over the cells that it doesn't use.
pub fn write(program: &Program, buffer: &mut [u8]) {
    buffer.fill(0);
    let counts = [
        program.version.into(),
        program.blocks.len(),
        program.instructions.len(),
    ];
    numbers::write(counts.map(|count| count as u64), buffer);
    let (blocks, instructions) = buffer.split_at_mut(numbers::BYTES * INSTRUCTIONS_AT);
    let blocks =
        blocks[numbers::BYTES * BLOCKS_AT..].chunks_exact_mut(numbers::BYTES * BLOCK_CELLS);
    for (block, cells) in program.blocks.iter().zip(blocks) {
        let fields = [
            block.first.into(),
            block.annotation.into(),
            block.policy.into(),
            block.label.into(),
            block.pair_count.into(),
            u64::from_le_bytes(block.pairs),
        ];
        numbers::write(fields, cells);
    }
    let instructions = instructions.chunks_exact_mut(numbers::BYTES * INSTRUCTION_CELLS);
    for (instruction, cells) in program.instructions.iter().zip(instructions) {
        let fields = [
            instruction.opcode.into(),
            instruction.r.into(),
            instruction.s.into(),
            instruction.kind.into(),
            instruction.operand,
        ];
        numbers::write(fields, cells);
    }
}

/// A start that question 6 refuses in every program.
const LACKING_BLOCK: Block = Block {
    first: u16::MAX,
    ..Block::PLAIN
};

/// An opcode that question 8 refuses.
const LACKING_INSTRUCTION: Instruction = Instruction {
    opcode: 0,
    r: 0,
    s: 0,
    kind: 0,
    operand: 0,
};

/// The cells of one block or instruction, if they are all there.
fn record(buffer: &[u8], first: usize, cells: usize, number: usize) -> Option<&[u8]> {
    let at = numbers::BYTES * (first + cells * number);
    buffer.get(at..at + numbers::BYTES * cells)
}

fn count(cell: u64) -> usize {
    cell.try_into().unwrap_or(usize::MAX)
}

/// A cell's number. One that is too large for its field becomes the largest that the field has room
/// for, which the same question refuses: there are fewer blocks, instructions, registers and kinds.
fn field<T: TryFrom<u64>>(record: &[u8], cell: usize, largest: T) -> T {
    let number = numbers::number_at(record, cell);
    number.try_into().unwrap_or(largest)
}

fn block(record: &[u8]) -> Block {
    Block {
        first: field(record, 0, u16::MAX),
        annotation: field(record, 1, u8::MAX),
        policy: field(record, 2, u8::MAX),
        label: field(record, 3, u8::MAX),
        pair_count: field(record, 4, u8::MAX),
        pairs: numbers::number_at(record, 5).to_le_bytes(),
    }
}

fn instruction(record: &[u8]) -> Instruction {
    Instruction {
        opcode: field(record, 0, u8::MAX),
        r: field(record, 1, u8::MAX),
        s: field(record, 2, u8::MAX),
        kind: field(record, 3, u8::MAX),
        operand: numbers::number_at(record, 4),
    }
}

#[cfg(test)]
mod tests;
