//! Program images of both versions: reader and writer. The questions about a program are beside it.

mod questions;

pub(crate) use questions::{check_counts, check_version};
pub use questions::{last_opcode, most_pairs};

use crate::question;
use questions::Fields;
use std::ops::RangeInclusive;

pub const MARK: [u8; 3] = *b"TPB";
pub const VERSION_1: u16 = 1;
/// With a stack for each task, and more pairs.
pub const VERSION_2: u16 = 2;
pub const VERSIONS: RangeInclusive<u16> = VERSION_1..=VERSION_2;
pub const MAX_BLOCKS: usize = 128;
pub const MAX_INSTRUCTIONS: usize = 1024;
/// Of version 2; version 1 has room for fewer.
pub const MAX_PAIRS: usize = 8;

pub const HEADER_BYTES: usize = 8;
pub const INSTRUCTION_BYTES: usize = 12;
/// Of a block record, before its pairs.
const PAIRS_AT: usize = 6;

/// Length of a block record.
pub const fn block_bytes(version: u16) -> usize {
    PAIRS_AT + most_pairs(version)
}

/// A program as an image spells it. The fields are public and hold any number, so a program need
/// not be valid: [`Program::check`] tells.
#[derive(Clone, Debug, PartialEq, Eq)]
pub struct Program {
    /// Of its image, of which there is one.
    pub version: u16,
    pub blocks: Vec<Block>,
    pub instructions: Vec<Instruction>,
}

/// Of 16 bytes, so that its place among the others is a shift: every jump looks one up.
#[derive(Clone, Copy, Debug, PartialEq, Eq)]
#[repr(align(16))]
pub struct Block {
    pub first: u16,
    /// 0 none, 1 promotion-ready, 2 join target.
    pub annotation: u8,
    /// 0 assoc, 1 assoc-comm.
    pub policy: u8,
    /// The handler block of annotation 1, the combining block of annotation 2.
    pub label: u8,
    pub pair_count: u8,
    /// High four bits: the child's register; low four bits: the target.
    pub pairs: [u8; MAX_PAIRS],
}

#[derive(Clone, Copy, Debug, PartialEq, Eq)]
pub struct Instruction {
    pub opcode: u8,
    pub r: u8,
    pub s: u8,
    /// 0 absent, 1 register, 2 label, 3 integer.
    pub kind: u8,
    pub operand: u64,
}

impl Instruction {
    #[inline(always)]
    fn decode(record: &[u8]) -> Self {
        Instruction {
            opcode: record[0],
            r: record[1],
            s: record[2],
            kind: record[3],
            operand: u64::from_le_bytes(record[4..12].try_into().unwrap()),
        }
    }

    fn encode(&self, record: &mut [u8]) {
        record[..4].copy_from_slice(&[self.opcode, self.r, self.s, self.kind]);
        record[4..].copy_from_slice(&self.operand.to_le_bytes());
    }
}

impl Block {
    /// A block at instruction 0 without an annotation.
    pub const PLAIN: Block = Block {
        first: 0,
        annotation: 0,
        policy: 0,
        label: 0,
        pair_count: 0,
        pairs: [0; MAX_PAIRS],
    };

    pub fn is_promotion_ready(&self) -> bool {
        self.annotation == 1
    }

    pub fn is_join_target(&self) -> bool {
        self.annotation == 2
    }

    /// The used pairs: the child's register and the target.
    pub fn register_pairs(&self) -> impl Iterator<Item = (usize, usize)> + '_ {
        self.pairs[..usize::from(self.pair_count)]
            .iter()
            .map(|&pair| (usize::from(pair >> 4), usize::from(pair & 15)))
    }

    /// Of a record with room for so many pairs.
    #[inline(always)]
    fn decode<const PAIRS: usize>(record: &[u8]) -> Self {
        let mut pairs = [0; MAX_PAIRS];
        pairs[..PAIRS].copy_from_slice(&record[PAIRS_AT..PAIRS_AT + PAIRS]);
        Block {
            first: u16::from_le_bytes([record[0], record[1]]),
            annotation: record[2],
            policy: record[3],
            label: record[4],
            pair_count: record[5],
            pairs,
        }
    }

    /// In a record with room for so many pairs; the others are 0.
    #[inline(always)]
    fn encode<const PAIRS: usize>(&self, record: &mut [u8]) {
        record[..2].copy_from_slice(&self.first.to_le_bytes());
        let fields = [self.annotation, self.policy, self.label, self.pair_count];
        record[2..PAIRS_AT].copy_from_slice(&fields);
        record[PAIRS_AT..PAIRS_AT + PAIRS].copy_from_slice(&self.pairs[..PAIRS]);
    }
}

impl Program {
    /// Length of this program's image.
    pub fn image_len(&self) -> usize {
        image_len(self.version, self.blocks.len(), self.instructions.len())
    }

    /// `image` has this program's image length.
    pub(crate) fn encode(&self, image: &mut [u8]) {
        let (header, records) = image.split_at_mut(HEADER_BYTES);
        header[..3].copy_from_slice(&MARK);
        header[3..5].copy_from_slice(&self.version.to_le_bytes());
        header[5] = self.blocks.len() as u8;
        header[6..].copy_from_slice(&(self.instructions.len() as u16).to_le_bytes());

        let block_bytes = block_bytes(self.version) * self.blocks.len();
        let (blocks, instructions) = records.split_at_mut(block_bytes);
        if self.version == VERSION_2 {
            self.encode_blocks::<{ most_pairs(VERSION_2) }>(blocks);
        } else {
            self.encode_blocks::<{ most_pairs(VERSION_1) }>(blocks);
        }
        for (instruction, record) in self
            .instructions
            .iter()
            .zip(instructions.chunks_exact_mut(INSTRUCTION_BYTES))
        {
            instruction.encode(record);
        }
    }

    fn encode_blocks<const PAIRS: usize>(&self, records: &mut [u8]) {
        let records = records.chunks_exact_mut(PAIRS_AT + PAIRS);
        for (block, record) in self.blocks.iter().zip(records) {
            block.encode::<PAIRS>(record);
        }
    }
}

fn image_len(version: u16, block_count: usize, instruction_count: usize) -> usize {
    HEADER_BYTES + block_bytes(version) * block_count + INSTRUCTION_BYTES * instruction_count
}

/// An image's records, as many as its header says.
struct Records<'a> {
    version: u16,
    blocks: &'a [u8],
    instructions: &'a [u8],
}

impl<'a> Records<'a> {
    /// Questions 1 to 5.
    fn of(image: &'a [u8]) -> Result<Self, u8> {
        if image.len() < HEADER_BYTES {
            return Err(question::HEADER);
        }
        let (header, records) = image.split_at(HEADER_BYTES);
        if header[..3] != MARK {
            return Err(question::MARK);
        }
        let version = u16::from_le_bytes([header[3], header[4]]);
        check_version(version)?;
        let block_count = usize::from(header[5]);
        let instruction_count = usize::from(u16::from_le_bytes([header[6], header[7]]));
        check_counts(block_count, instruction_count)?;
        if image.len() != image_len(version, block_count, instruction_count) {
            return Err(question::LENGTH);
        }
        let (blocks, instructions) = records.split_at(block_bytes(version) * block_count);
        Ok(Records {
            version,
            blocks,
            instructions,
        })
    }

    fn block_count(&self) -> usize {
        self.blocks.len() / block_bytes(self.version)
    }

    fn instruction_count(&self) -> usize {
        self.instructions.len() / INSTRUCTION_BYTES
    }

    /// Questions 6 and 7. The length of a record is a constant, like the decoding inlined: else the
    /// compiler doesn't see it, and the benchmark's peer is not at its best.
    fn check_blocks<const PAIRS: usize>(&self) -> Result<(), u8> {
        let (block_count, instruction_count) = (self.block_count(), self.instruction_count());
        let mut expected = 0..=0;
        for record in self.blocks.chunks_exact(PAIRS_AT + PAIRS) {
            let block = Block::decode::<PAIRS>(record);
            let first = usize::from(block.first);
            if !expected.contains(&first) || first >= instruction_count {
                return Err(question::BLOCK_START);
            }
            if !block.is_annotated_as_laid_out(block_count, PAIRS) {
                return Err(question::ANNOTATION);
            }
            expected = first + 1..=usize::MAX;
        }
        Ok(())
    }

    /// Questions 8 and 9.
    fn check_instructions<const PAIRS: usize>(&self) -> Result<(), u8> {
        let fields = Fields::of(self.version, self.block_count());
        let instruction_count = self.instruction_count();
        let mut starts = self
            .blocks
            .chunks_exact(PAIRS_AT + PAIRS)
            .skip(1)
            .map(|record| usize::from(u16::from_le_bytes([record[0], record[1]])));
        let mut end = starts.next().unwrap_or(instruction_count);
        let records = self.instructions.chunks_exact(INSTRUCTION_BYTES);
        for (i, record) in records.enumerate() {
            let instruction = Instruction::decode(record);
            if !instruction.is_as_laid_out(&fields) {
                return Err(question::FIELDS);
            }
            let is_last = i + 1 == end;
            if instruction.ends_block() != is_last {
                return Err(question::LAST_IN_BLOCK);
            }
            if is_last {
                end = starts.next().unwrap_or(instruction_count);
            }
        }
        Ok(())
    }

    fn check<const PAIRS: usize>(&self) -> Result<(), u8> {
        self.check_blocks::<PAIRS>()?;
        self.check_instructions::<PAIRS>()
    }

    fn decoded_blocks<const PAIRS: usize>(&self) -> Vec<Block> {
        self.blocks
            .chunks_exact(PAIRS_AT + PAIRS)
            .map(Block::decode::<PAIRS>)
            .collect()
    }
}

/// The image check: the number of the first question that is answered with no. It goes through the
/// records as `Program`'s checks do through a program, and makes none.
pub fn check(image: &[u8]) -> Result<(), u8> {
    let records = Records::of(image)?;
    if records.version == VERSION_2 {
        records.check::<{ most_pairs(VERSION_2) }>()
    } else {
        records.check::<{ most_pairs(VERSION_1) }>()
    }
}

/// The program of an image, or the number of the first question that is answered with no.
pub fn read(image: &[u8]) -> Result<Program, u8> {
    let records = Records::of(image)?;
    let blocks = if records.version == VERSION_2 {
        records.decoded_blocks::<{ most_pairs(VERSION_2) }>()
    } else {
        records.decoded_blocks::<{ most_pairs(VERSION_1) }>()
    };
    let program = Program {
        version: records.version,
        blocks,
        instructions: records
            .instructions
            .chunks_exact(INSTRUCTION_BYTES)
            .map(Instruction::decode)
            .collect(),
    };
    program.check_blocks()?;
    program.check_instructions()?;
    Ok(program)
}

/// The program's image, or the number of the first of questions 3, 4 and 6 to 9 that is answered
/// with no.
pub fn write(program: &Program) -> Result<Vec<u8>, u8> {
    program.check()?;
    let mut image = vec![0; program.image_len()];
    program.encode(&mut image);
    Ok(image)
}

/// Writes the program's image over `out`, which has its length. A refusal leaves `out` as it was.
pub fn write_into(program: &Program, out: &mut [u8]) -> Result<(), u8> {
    program.check()?;
    if out.len() != program.image_len() {
        return Err(question::BUFFER);
    }
    program.encode(out);
    Ok(())
}

/// Reads an image and writes its program over `out`, which has the image's length. A refusal
/// leaves `out` as it was. The reader has put all of the writer's questions but the last.
pub fn rewrite(image: &[u8], out: &mut [u8]) -> Result<(), u8> {
    let program = read(image)?;
    if out.len() != image.len() {
        return Err(question::BUFFER);
    }
    program.encode(out);
    Ok(())
}

#[cfg(test)]
mod tests;
