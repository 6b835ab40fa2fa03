//! An image in the making: a valid one, and changes of more than a field.

use crate::layout::{
    block_len, image_of, instruction, join_target, pair, plain, pop, promotion_ready, BlockRecord,
    InstructionRecord, ABSENT, HEADER, INSTRUCTION, INTEGER, LABEL, LONG_BLOCK, REGISTER,
};
use crate::random::Random;
use model::{most_pairs, opcode, VERSION_1, VERSION_2};

/// The image, with the version and the counts that it was made for.
pub struct Draft {
    pub image: Vec<u8>,
    pub version: u16,
    pub block_count: usize,
    pub instruction_count: usize,
}

impl Draft {
    pub fn valid(
        random: &mut Random,
        version: u16,
        (block_count, instruction_count): (usize, usize),
    ) -> Self {
        let starts = starts(random, block_count, instruction_count);
        let blocks: Vec<_> = starts
            .iter()
            .map(|&first| block_record(random, version, first, block_count))
            .collect();
        let mut next_block = 1;
        let instructions: Vec<_> = (1..=instruction_count)
            .map(|next| {
                let end = match starts.get(next_block) {
                    Some(&start) => usize::from(start),
                    None => instruction_count,
                };
                let opcode = if next == end {
                    next_block += 1;
                    random.between(13, 15) as u8
                } else {
                    going_on(random, version)
                };
                instruction_record(random, opcode, block_count)
            })
            .collect();
        Draft {
            image: image_of(version, &blocks, &instructions),
            version,
            block_count,
            instruction_count,
        }
    }

    pub fn block_at(&self, block: usize) -> usize {
        HEADER + block_len(self.version) * block
    }

    pub fn instruction_at(&self, instruction: usize) -> usize {
        self.block_at(self.block_count) + INSTRUCTION * instruction
    }

    pub fn half(&self, at: usize) -> u16 {
        u16::from_le_bytes([self.image[at], self.image[at + 1]])
    }

    pub fn set_half(&mut self, at: usize, half: u16) {
        self.image[at..at + 2].copy_from_slice(&half.to_le_bytes());
    }

    /// Moves a block's start by one, or puts a well-formed instruction in another's place: what is
    /// left to ask is question 9.
    pub fn replace(&mut self, random: &mut Random) {
        if random.one_in(4) {
            let at = self.block_at(near_ends(random, self.block_count));
            let first = self.half(at);
            let moved = if random.one_in(2) {
                first.wrapping_add(1)
            } else {
                first.wrapping_sub(1)
            };
            self.set_half(at, moved);
        } else {
            let opcode = random.between(1, model::last_opcode(self.version).into()) as u8;
            let record = instruction_record(random, opcode, self.block_count);
            let at = self.instruction_at(near_ends(random, self.instruction_count));
            self.image[at..at + INSTRUCTION].copy_from_slice(&record);
        }
    }

    /// The same records in an image of the other version. Version 1 has no room for some pairs of
    /// version 2, and lacks two of its opcodes.
    pub fn move_to_other_version(&mut self) {
        let old = block_len(self.version);
        let new = block_len(VERSION_1 + VERSION_2 - self.version);
        let (front, instructions) = self.image.split_at(self.instruction_at(0));
        let (header, blocks) = front.split_at(HEADER);
        let mut image = header.to_vec();
        for record in blocks.chunks_exact(old) {
            let mut moved = [0; LONG_BLOCK];
            moved[..old].copy_from_slice(record);
            image.extend(&moved[..new]);
        }
        image.extend(instructions);
        self.version = VERSION_1 + VERSION_2 - self.version;
        self.image = image;
        self.set_half(3, self.version);
    }

    /// Other counts in the header, and the length that goes with them.
    pub fn resize(&mut self, random: &mut Random) {
        let block_count = match random.below(4) {
            0 => self.block_count,
            1 => self.block_count - 1,
            2 => self.block_count + 1,
            _ => random.pick(&[0, 1, 127, 128, 129, 255]),
        };
        let instruction_count = match random.below(4) {
            0 => self.instruction_count,
            1 => self.instruction_count - 1,
            2 => self.instruction_count + 1,
            _ => random.pick(&[0, 1, 1023, 1024, 1025, 4000]),
        };
        self.image[5] = block_count as u8;
        self.set_half(6, instruction_count as u16);
        let fill = if random.one_in(2) { 0 } else { random.byte() };
        let len = self.block_at(block_count) + INSTRUCTION * instruction_count;
        self.image.resize(len, fill);
    }

    pub fn cut(&mut self, random: &mut Random) {
        let len = self.image.len();
        let shorter = [
            0,
            random.below(8),
            8,
            len - INSTRUCTION,
            len - 1,
            random.below(len),
        ];
        self.image.truncate(random.pick(&shorter));
    }

    pub fn lengthen(&mut self, random: &mut Random) {
        // Also by what the other version's records have more.
        let more = 4 * self.block_count;
        let record = block_len(self.version);
        let longer = [1, record, more, INSTRUCTION, random.between(1, 1000)];
        let len = self.image.len() + random.pick(&longer);
        let fill = if random.one_in(2) { 0 } else { random.byte() };
        self.image.resize(len, fill);
    }

    pub fn randomize_records(&mut self, random: &mut Random) {
        // Good blocks half the time, so that the instructions are looked at.
        let from = if random.one_in(2) {
            HEADER
        } else {
            self.instruction_at(0)
        };
        for byte in &mut self.image[from..] {
            *byte = random.byte() >> random.below(8);
        }
    }
}

/// Starts of the blocks: 0, and the others drawn from all rising lists below I alike.
fn starts(random: &mut Random, block_count: usize, instruction_count: usize) -> Vec<u16> {
    let mut starts = vec![0];
    let mut wanted = block_count - 1;
    for i in 1..instruction_count {
        if random.below(instruction_count - i) < wanted {
            starts.push(i as u16);
            wanted -= 1;
        }
    }
    starts
}

/// A number below `bound`, often the least or the greatest.
pub fn near_ends(random: &mut Random, bound: usize) -> usize {
    match random.below(8) {
        0 => 0,
        1 => bound - 1,
        _ => random.below(bound),
    }
}

fn register(random: &mut Random) -> u8 {
    near_ends(random, 16) as u8
}

fn label(random: &mut Random, block_count: usize) -> u8 {
    near_ends(random, block_count) as u8
}

fn block_record(random: &mut Random, version: u16, first: u16, block_count: usize) -> BlockRecord {
    match random.below(3) {
        0 => plain(first),
        1 => promotion_ready(first, label(random, block_count)),
        _ => {
            let mut targets = 0u16;
            for _ in 0..random.between(0, most_pairs(version)) {
                targets |= 1 << register(random);
            }
            let pairs: Vec<u8> = (0..16)
                .filter(|target| targets >> target & 1 == 1)
                .map(|target| pair(register(random), target))
                .collect();
            let policy = random.below(2) as u8;
            join_target(first, policy, label(random, block_count), &pairs)
        }
    }
}

/// An opcode that ends no block.
fn going_on(random: &mut Random, version: u16) -> u8 {
    if version == VERSION_2 && random.one_in(6) {
        return random.pick(&[opcode::PUSH, opcode::POP]);
    }
    random.between(1, 12) as u8
}

/// A well-formed instruction of this opcode.
fn instruction_record(random: &mut Random, opcode: u8, block_count: usize) -> InstructionRecord {
    let r = if matches!(opcode, 1..=9 | 11) {
        register(random)
    } else {
        0
    };
    let s = if matches!(opcode, 2..=8 | 10 | 12) {
        register(random)
    } else {
        0
    };
    if opcode == opcode::HALT {
        return instruction(opcode, r, s, ABSENT, 0);
    }
    if opcode == opcode::POP {
        return pop(register(random));
    }
    match random.below(3) {
        0 => instruction(opcode, r, s, REGISTER, u64::from(register(random))),
        1 => instruction(opcode, r, s, LABEL, u64::from(label(random, block_count))),
        _ => instruction(opcode, r, s, INTEGER, integer(random)),
    }
}

fn integer(random: &mut Random) -> u64 {
    match random.below(4) {
        0 => random.pick(&[0, 1, 15, 16, 1 << 32, i64::MAX as u64, 1 << 63, u64::MAX]),
        1 => random.bits() >> random.below(64),
        _ => random.bits(),
    }
}
