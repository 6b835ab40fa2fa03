//! Questions 3, 4 and 6 to 9: what a program must be, whether it is read from an image or at hand.

use super::{Block, Instruction, Program, MAX_BLOCKS, MAX_INSTRUCTIONS, MAX_PAIRS, VERSION_2};
use crate::{opcode, question};
use std::iter;

const HIGHEST_REGISTER: u8 = 15;

/// What a block of this version has room for.
pub const fn most_pairs(version: u16) -> usize {
    if version == VERSION_2 {
        MAX_PAIRS
    } else {
        4
    }
}

/// The opcodes of this version are 1 to this one.
pub const fn last_opcode(version: u16) -> u8 {
    if version == VERSION_2 {
        opcode::POP
    } else {
        opcode::JOIN
    }
}

/// The largest number, and for the kind also the least, that an opcode's fields may hold. An
/// absent field is one that may hold only 0.
struct Limits {
    r: u8,
    s: u8,
    least_kind: u8,
    kind: u8,
}

const fn with(r: bool, s: bool, v: bool) -> Limits {
    Limits {
        r: if r { HIGHEST_REGISTER } else { 0 },
        s: if s { HIGHEST_REGISTER } else { 0 },
        least_kind: if v { 1 } else { 0 },
        kind: if v { 3 } else { 0 },
    }
}

const R_V: Limits = with(true, false, true);
const R_S_V: Limits = with(true, true, true);
const S_V: Limits = with(false, true, true);
const R: Limits = with(true, false, false);
const V: Limits = with(false, false, true);
const NONE: Limits = with(false, false, false);

/// Which fields each opcode has, from opcode 1 on.
static FIELDS: [Limits; 17] = [
    R_V, R_S_V, R_S_V, R_S_V, R_S_V, R_S_V, R_S_V, R_S_V, R_V, S_V, R_V, S_V, V, NONE, V, V, R,
];

/// What question 8 holds an instruction against: the fields of a version's opcodes, and the largest
/// operand of each kind.
pub(super) struct Fields {
    opcodes: &'static [Limits],
    largest: [u64; 4],
}

impl Fields {
    pub(super) fn of(version: u16, block_count: usize) -> Self {
        let labels = block_count as u64 - 1;
        Fields {
            opcodes: &FIELDS[..usize::from(last_opcode(version))],
            largest: [0, HIGHEST_REGISTER.into(), labels, u64::MAX],
        }
    }
}

impl Instruction {
    /// Question 8. The tests are joined by `&`: the opcodes of a program follow no pattern that a
    /// branch predictor could learn.
    #[inline]
    pub(super) fn is_as_laid_out(&self, fields: &Fields) -> bool {
        let opcode = usize::from(self.opcode).wrapping_sub(1);
        match fields.opcodes.get(opcode) {
            None => false,
            Some(limits) => {
                (self.r <= limits.r)
                    & (self.s <= limits.s)
                    & (self.kind >= limits.least_kind)
                    & (self.kind <= limits.kind)
                    & (self.operand <= fields.largest[usize::from(self.kind & 3)])
            }
        }
    }

    /// Jump, halt and join: control does not go on to the next instruction.
    #[inline]
    pub(super) fn ends_block(&self) -> bool {
        matches!(self.opcode, opcode::JUMP..=opcode::JOIN)
    }
}

impl Block {
    /// Question 7.
    #[inline]
    pub(super) fn is_annotated_as_laid_out(&self, block_count: usize, most_pairs: usize) -> bool {
        let label_in_range = usize::from(self.label) < block_count;
        let no_policy_or_pairs =
            self.policy == 0 && self.pair_count == 0 && self.pairs == [0; MAX_PAIRS];
        match self.annotation {
            0 => self.label == 0 && no_policy_or_pairs,
            1 => label_in_range && no_policy_or_pairs,
            2 => label_in_range && self.policy <= 1 && self.has_rising_pairs(most_pairs),
            _ => false,
        }
    }

    /// Used pairs first, in strictly rising order of target, the unused ones 0: also those that the
    /// version has no room for.
    #[inline]
    fn has_rising_pairs(&self, most_pairs: usize) -> bool {
        let count = usize::from(self.pair_count);
        if count > most_pairs {
            return false;
        }
        let unused = u64::from_le_bytes(self.pairs).checked_shr(8 * count as u32);
        let used = &self.pairs[..count];
        used.windows(2).all(|w| w[0] & 15 < w[1] & 15) && unused.unwrap_or(0) == 0
    }
}

/// Question 3.
#[inline]
pub(crate) fn check_version(version: u16) -> Result<(), u8> {
    if super::VERSIONS.contains(&version) {
        Ok(())
    } else {
        Err(question::VERSION)
    }
}

/// Question 4.
#[inline]
pub(crate) fn check_counts(block_count: usize, instruction_count: usize) -> Result<(), u8> {
    let allowed = (1..=MAX_BLOCKS).contains(&block_count)
        && (1..=MAX_INSTRUCTIONS).contains(&instruction_count);
    if allowed {
        Ok(())
    } else {
        Err(question::COUNTS)
    }
}

impl Program {
    /// The questions about a program that is at hand: 3 and 4, then 6 and 7 block by block, then 8
    /// and 9 instruction by instruction.
    pub fn check(&self) -> Result<(), u8> {
        check_version(self.version)?;
        check_counts(self.blocks.len(), self.instructions.len())?;
        self.check_blocks()?;
        self.check_instructions()
    }

    pub(crate) fn check_blocks(&self) -> Result<(), u8> {
        let most_pairs = most_pairs(self.version);
        let mut expected = 0..=0;
        for block in &self.blocks {
            let first = usize::from(block.first);
            if !expected.contains(&first) || first >= self.instructions.len() {
                return Err(question::BLOCK_START);
            }
            if !block.is_annotated_as_laid_out(self.blocks.len(), most_pairs) {
                return Err(question::ANNOTATION);
            }
            expected = first + 1..=usize::MAX;
        }
        Ok(())
    }

    /// Expects what `check_blocks` has asked: the blocks divide the instructions, none is empty.
    pub(crate) fn check_instructions(&self) -> Result<(), u8> {
        let fields = Fields::of(self.version, self.blocks.len());
        let starts = self.blocks.iter().map(|block| usize::from(block.first));
        let ends = starts
            .clone()
            .skip(1)
            .chain(iter::once(self.instructions.len()));
        for (start, end) in starts.zip(ends) {
            for (i, instruction) in self.instructions[start..end].iter().enumerate() {
                if !instruction.is_as_laid_out(&fields) {
                    return Err(question::FIELDS);
                }
                let is_last = start + i + 1 == end;
                if instruction.ends_block() != is_last {
                    return Err(question::LAST_IN_BLOCK);
                }
            }
        }
        Ok(())
    }
}
