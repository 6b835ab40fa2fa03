//! One cell of a program buffer changed.

use super::{other, set, Damage};
use crate::numbers::number_at;
use crate::random::Random;
use model::{MAX_BLOCKS, MAX_INSTRUCTIONS};

/// A cell's kind in a program buffer.
pub const CELL_FIELDS: [&str; 15] = [
    "version",
    "B",
    "I",
    "first",
    "annotation",
    "policy",
    "label",
    "pair count",
    "pairs",
    "opcode",
    "r",
    "s",
    "kind",
    "operand",
    "unused",
];
const BLOCKS_AT: usize = 3;
const BLOCK_CELLS: usize = 6;
const INSTRUCTIONS_AT: usize = BLOCKS_AT + BLOCK_CELLS * MAX_BLOCKS;
const INSTRUCTION_CELLS: usize = 5;

/// Changes one cell of a program buffer that has its length.
pub fn damage_program(random: &mut Random, program: &mut [u8]) -> Damage {
    if random.one_in(24) {
        let version = random.pick(&[0, 3, 65_535, 1 << 16 | 1, 1 << 32 | 2]);
        set(program, 0, version);
        let count = random.pick(&[0, 1025, 1 << 32 | 1]);
        set(program, random.between(1, 2), count);
        return Damage::VersionAndCount;
    }
    let count = |cell, most: usize| (number_at(program, cell) as usize).clamp(1, most);
    let counts @ (b, i) = (count(1, MAX_BLOCKS), count(2, MAX_INSTRUCTIONS));
    let (cell, field) = cell_to_change(random, counts, program.len() / 8);
    let around = [b - 1, b, b + 1, i - 1, i, i + 1].map(|count| count as u64);
    let mut likely = vec![0, 1, 2, 3, 4, 12, 13, 15, 16, 17, 18];
    likely.extend(around);
    likely.extend([128, 129, 1024, 1025, 1 << 32, u64::MAX]);
    let (new, manner) = other(random, number_at(program, cell), &likely);
    set(program, cell, new);
    Damage::Cell { field, manner }
}

/// A cell and its field, in a program of these numbers of blocks and instructions.
fn cell_to_change(
    random: &mut Random,
    (blocks, instructions): (usize, usize),
    cells: usize,
) -> (usize, usize) {
    let near = |random: &mut Random, count: usize| match random.below(4) {
        0 => 0,
        1 => count - 1,
        _ => random.below(count),
    };
    match random.below(17) {
        first @ 0..=2 => (first, first),
        3..=8 => {
            let at = random.below(BLOCK_CELLS);
            let block = BLOCKS_AT + BLOCK_CELLS * near(random, blocks);
            (block + at, BLOCKS_AT + at)
        }
        9..=15 => {
            let at = random.below(INSTRUCTION_CELLS);
            let number = near(random, instructions);
            let field = BLOCKS_AT + BLOCK_CELLS + at;
            (INSTRUCTIONS_AT + INSTRUCTION_CELLS * number + at, field)
        }
        _ => {
            let after_blocks = BLOCKS_AT + BLOCK_CELLS * blocks;
            let after = INSTRUCTIONS_AT + INSTRUCTION_CELLS * instructions;
            let unused = (after_blocks..INSTRUCTIONS_AT).chain(after..cells);
            let unused: Vec<usize> = unused.collect();
            match unused.is_empty() {
                true => (0, 0),
                false => (random.pick(&unused), CELL_FIELDS.len() - 1),
            }
        }
    }
}

/// Where a program's version, its counts, its last block and its last instruction end.
pub(super) fn used_lengths(program: &[u8]) -> [usize; 4] {
    let count = |cell: usize, most: usize| match program.get(8 * cell..8 * cell + 8) {
        Some(_) => (number_at(program, cell) as usize).min(most),
        None => 0,
    };
    [
        // Of the version alone.
        1,
        BLOCKS_AT,
        BLOCKS_AT + BLOCK_CELLS * count(1, MAX_BLOCKS),
        INSTRUCTIONS_AT + INSTRUCTION_CELLS * count(2, MAX_INSTRUCTIONS),
    ]
    .map(|cells| 8 * cells)
}
