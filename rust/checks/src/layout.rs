//! Images built record by record from document 01's layout and document 02's, without the model's
//! writer.

pub const HEADER: usize = 8;
/// Of version 1, and of version 2.
pub const BLOCK: usize = 10;
pub const LONG_BLOCK: usize = 14;
pub const INSTRUCTION: usize = 12;

/// As version 2 has it. Version 1 has the first ten bytes.
pub type BlockRecord = [u8; LONG_BLOCK];
pub type InstructionRecord = [u8; INSTRUCTION];

/// Operand kinds.
pub const ABSENT: u8 = 0;
pub const REGISTER: u8 = 1;
pub const LABEL: u8 = 2;
pub const INTEGER: u8 = 3;

/// Length of a version's block record.
pub fn block_len(version: u16) -> usize {
    match version {
        2 => LONG_BLOCK,
        _ => BLOCK,
    }
}

/// Offsets inside a block record.
pub mod block_field {
    pub const FIRST: usize = 0;
    pub const ANNOTATION: usize = 2;
    pub const POLICY: usize = 3;
    pub const LABEL: usize = 4;
    pub const PAIR_COUNT: usize = 5;
    pub const PAIRS: usize = 6;
}

/// Offsets inside an instruction record.
pub mod instruction_field {
    pub const OPCODE: usize = 0;
    pub const R: usize = 1;
    pub const S: usize = 2;
    pub const KIND: usize = 3;
    pub const OPERAND: usize = 4;
}

fn block(first: u16, annotation: u8, policy: u8, label: u8, pairs: &[u8]) -> BlockRecord {
    let mut record = [0; LONG_BLOCK];
    record[..2].copy_from_slice(&first.to_le_bytes());
    record[2] = annotation;
    record[3] = policy;
    record[4] = label;
    record[5] = pairs.len() as u8;
    record[6..6 + pairs.len()].copy_from_slice(pairs);
    record
}

pub fn plain(first: u16) -> BlockRecord {
    block(first, 0, 0, 0, &[])
}

pub fn promotion_ready(first: u16, handler: u8) -> BlockRecord {
    block(first, 1, 0, handler, &[])
}

pub fn join_target(first: u16, policy: u8, combining: u8, pairs: &[u8]) -> BlockRecord {
    block(first, 2, policy, combining, pairs)
}

/// A pair byte: the child's register and the target.
pub fn pair(child: u8, target: u8) -> u8 {
    child << 4 | target
}

pub fn instruction(opcode: u8, r: u8, s: u8, kind: u8, operand: u64) -> InstructionRecord {
    let mut record = [0; INSTRUCTION];
    record[..4].copy_from_slice(&[opcode, r, s, kind]);
    record[4..].copy_from_slice(&operand.to_le_bytes());
    record
}

pub fn set(r: u8, integer: i64) -> InstructionRecord {
    instruction(1, r, 0, INTEGER, integer as u64)
}

pub fn add(r: u8, s: u8, kind: u8, operand: u64) -> InstructionRecord {
    instruction(2, r, s, kind, operand)
}

pub fn jump(label: u8) -> InstructionRecord {
    instruction(13, 0, 0, LABEL, u64::from(label))
}

pub fn halt() -> InstructionRecord {
    instruction(14, 0, 0, ABSENT, 0)
}

pub fn join(r: u8) -> InstructionRecord {
    instruction(15, 0, 0, REGISTER, u64::from(r))
}

pub fn push(kind: u8, operand: u64) -> InstructionRecord {
    instruction(16, 0, 0, kind, operand)
}

pub fn pop(r: u8) -> InstructionRecord {
    instruction(17, r, 0, ABSENT, 0)
}

/// Of version 1.
pub fn image(blocks: &[BlockRecord], instructions: &[InstructionRecord]) -> Vec<u8> {
    image_of(1, blocks, instructions)
}

pub fn image_of(
    version: u16,
    blocks: &[BlockRecord],
    instructions: &[InstructionRecord],
) -> Vec<u8> {
    let mut image = b"TPB".to_vec();
    image.extend(version.to_le_bytes());
    image.push(blocks.len() as u8);
    image.extend((instructions.len() as u16).to_le_bytes());
    for block in blocks {
        image.extend(&block[..block_len(version)]);
    }
    image.extend(instructions.concat());
    image
}

/// Document 01's program F.
pub fn program_f() -> Vec<u8> {
    let blocks = [
        plain(0),
        plain(4),
        join_target(6, 0, 3, &[pair(0, 2)]),
        plain(7),
    ];
    let jralloc = |r, label| instruction(11, r, 0, LABEL, label);
    let fork = |s, label| instruction(12, 0, s, LABEL, label);
    let instructions = [
        jralloc(1, 2),
        fork(1, 1),
        add(0, 0, INTEGER, 1),
        join(1),
        set(0, 7),
        join(1),
        halt(),
        add(0, 0, REGISTER, 2),
        join(1),
    ];
    image(&blocks, &instructions)
}

/// A small program with every opcode of its version, each with every kind of operand that it may
/// have, and every annotation.
pub fn every_form(version: u16) -> Vec<u8> {
    let kinds = [(REGISTER, 15), (LABEL, 6), (INTEGER, u64::MAX)];
    let forms = |opcode: u8| {
        let r = if matches!(opcode, 1..=9 | 11) { 15 } else { 0 };
        let s = if matches!(opcode, 2..=8 | 10 | 12) {
            15
        } else {
            0
        };
        kinds.map(|(kind, operand)| instruction(opcode, r, s, kind, operand))
    };
    let mut instructions: Vec<_> = (1..=12).flat_map(forms).collect();
    if version == 2 {
        instructions.extend(forms(16));
        instructions.push(pop(15));
    }
    let body = instructions.len() as u16;
    instructions.extend(forms(13));
    instructions.extend(forms(15));
    instructions.push(halt());

    let pairs = most_pairs(version);
    let blocks = [
        plain(0),
        promotion_ready(body + 1, 6),
        join_target(body + 2, 0, 0, &[]),
        join_target(body + 3, 1, 6, &pairs[..2]),
        join_target(body + 4, 0, 3, &pairs),
        plain(body + 5),
        plain(body + 6),
    ];
    image_of(version, &blocks, &instructions)
}

/// As many pairs as a block of this version has room for.
fn most_pairs(version: u16) -> Vec<u8> {
    let mut pairs = vec![pair(15, 0), pair(3, 1)];
    if version == 2 {
        pairs.extend([pair(3, 2), pair(2, 3), pair(8, 7), pair(0, 9)]);
    }
    pairs.extend([pair(0, 14), pair(9, 15)]);
    pairs
}

/// An image of version 1 with the given counts.
pub fn even_blocks(block_count: usize, instruction_count: usize) -> Vec<u8> {
    even_blocks_of(1, block_count, instruction_count)
}

/// An image of the given counts: blocks as even as can be, every one a join target with as many pairs
/// as its version has room for, sums of a register and an integer, and a jump at each block's end.
pub fn even_blocks_of(version: u16, block_count: usize, instruction_count: usize) -> Vec<u8> {
    let start = |b: usize| b * instruction_count / block_count;
    let pairs = most_pairs(version);
    let blocks: Vec<_> = (0..block_count)
        .map(|b| {
            join_target(
                start(b) as u16,
                (b % 2) as u8,
                (block_count - 1) as u8,
                &pairs,
            )
        })
        .collect();
    let mut instructions: Vec<_> = (0..instruction_count)
        .map(|i| add((i % 16) as u8, (i / 16 % 16) as u8, INTEGER, i as u64))
        .collect();
    for b in 0..block_count {
        instructions[start(b + 1) - 1] = jump((block_count - 1 - b) as u8);
    }
    image_of(version, &blocks, &instructions)
}
