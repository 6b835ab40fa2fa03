//! One field of an image changed.

use crate::draft::{near_ends, Draft};
use crate::layout::{block_field, instruction_field, INSTRUCTION};
use crate::random::Random;
use model::most_pairs;

pub const HEADER_FIELDS: [&str; 4] = ["mark", "version", "B", "I"];
/// The last four are version 2's alone.
pub const BLOCK_FIELDS: [&str; 13] = [
    "first",
    "annotation",
    "policy",
    "label",
    "pair count",
    "pair 0",
    "pair 1",
    "pair 2",
    "pair 3",
    "pair 4",
    "pair 5",
    "pair 6",
    "pair 7",
];
const FIRST_PAIR: usize = 5;
pub const INSTRUCTION_FIELDS: [&str; 5] = ["opcode", "r", "s", "kind", "operand"];

/// The field that was damaged, by its position in the lists above, and the annotation or opcode
/// of its record before that.
#[derive(Clone, Copy, Debug, PartialEq, Eq)]
pub enum Field {
    Header(usize),
    Block { annotation: u8, field: usize },
    Instruction { opcode: u8, field: usize },
}

impl Draft {
    /// Changes one field of one record or of the header.
    pub fn damage(&mut self, random: &mut Random) -> Field {
        match random.below(8) {
            0 => self.damage_header(random),
            1..=3 => {
                let block = near_ends(random, self.block_count);
                self.damage_block(random, block)
            }
            _ => {
                let instruction = near_ends(random, self.instruction_count);
                self.damage_instruction(random, instruction)
            }
        }
    }

    fn damage_header(&mut self, random: &mut Random) -> Field {
        let field = random.below(HEADER_FIELDS.len());
        match field {
            0 => {
                let at = random.below(3);
                self.change_byte(random, at, b"TPBtpb\0");
            }
            1 => self.change_half(random, 3, &[0, 1, 2, 3, 256, 257, 258, u16::MAX]),
            2 => self.change_byte(random, 5, &[0, 1, 127, 128, 129, 255]),
            _ => self.change_half(random, 6, &[0, 1, 1023, 1024, 1025, u16::MAX]),
        }
        Field::Header(field)
    }

    fn damage_block(&mut self, random: &mut Random, block: usize) -> Field {
        let at = self.block_at(block);
        let annotation = self.image[at + block_field::ANNOTATION];
        let field = random.below(FIRST_PAIR + most_pairs(self.version));
        let (b, i) = (self.block_count as u8, self.instruction_count as u16);
        match field {
            0 => {
                let before = self.half(self.block_at(block.saturating_sub(1)));
                let after = self.half(self.block_at((block + 1).min(self.block_count - 1)));
                let likely = [
                    0,
                    1,
                    before,
                    before.wrapping_add(1),
                    after,
                    i - 1,
                    i,
                    i + 1,
                    1024,
                ];
                self.change_half(random, at + block_field::FIRST, &likely);
            }
            1 => self.change_byte(random, at + block_field::ANNOTATION, &[0, 1, 2, 3, 255]),
            2 => self.change_byte(random, at + block_field::POLICY, &[0, 1, 2, 255]),
            3 => {
                let likely = [0, 1, b - 1, b, b + 1, 127, 128, 255];
                self.change_byte(random, at + block_field::LABEL, &likely);
            }
            4 => {
                let likely = [0, 1, 2, 3, 4, 5, 7, 8, 9, 255];
                self.change_byte(random, at + block_field::PAIR_COUNT, &likely);
            }
            _ => {
                let place = at + block_field::PAIRS + (field - FIRST_PAIR);
                // A target equal to the neighbour's, or one beside it.
                let neighbour = self.image[place - 1];
                let likely = [0, 1, 0xf0, neighbour, neighbour ^ 0x10, neighbour ^ 1];
                self.change_byte(random, place, &likely);
            }
        }
        Field::Block { annotation, field }
    }

    fn damage_instruction(&mut self, random: &mut Random, instruction: usize) -> Field {
        let at = self.instruction_at(instruction);
        let opcode = self.image[at];
        let field = random.below(INSTRUCTION_FIELDS.len());
        let register = [0, 1, 15, 16, 17, 255];
        match field {
            0 => {
                let any = random.between(0, 18) as u8;
                let likely = [any, any, 0, 12, 13, 14, 15, 16, 17, 18, 255];
                self.change_byte(random, at + instruction_field::OPCODE, &likely);
            }
            1 => self.change_byte(random, at + instruction_field::R, &register),
            2 => self.change_byte(random, at + instruction_field::S, &register),
            3 => {
                let likely = [0, 1, 2, 3, 4, 5, 7, 255];
                self.change_byte(random, at + instruction_field::KIND, &likely);
            }
            _ => {
                let place = at + instruction_field::OPERAND..at + INSTRUCTION;
                let old = u64::from_le_bytes(self.image[place.clone()].try_into().unwrap());
                let b = self.block_count as u64;
                let likely = [0, 1, 15, 16, b - 1, b, b + 1, 128, 256, 1 << 32, 1 << 63];
                let new = other_word(random, old, &likely);
                self.image[place].copy_from_slice(&new.to_le_bytes());
            }
        }
        Field::Instruction { opcode, field }
    }

    fn change_half(&mut self, random: &mut Random, at: usize, likely: &[u16]) {
        let new = other_half(random, self.half(at), likely);
        self.set_half(at, new);
    }

    fn change_byte(&mut self, random: &mut Random, at: usize, likely: &[u8]) {
        self.image[at] = other_byte(random, self.image[at], likely);
    }
}

/// A byte other than `old`: a neighbour, one bit off, anything, or one of `likely`.
fn other_byte(random: &mut Random, old: u8, likely: &[u8]) -> u8 {
    let new = match random.below(5) {
        0 => old.wrapping_add(1),
        1 => old.wrapping_sub(1),
        2 => old ^ (1 << random.below(8)),
        3 => random.byte(),
        _ => random.pick(likely),
    };
    if new == old {
        !old
    } else {
        new
    }
}

/// The same for two bytes.
fn other_half(random: &mut Random, old: u16, likely: &[u16]) -> u16 {
    let new = match random.below(5) {
        0 => old.wrapping_add(1),
        1 => old.wrapping_sub(1),
        2 => old ^ (1 << random.below(16)),
        3 => random.bits() as u16,
        _ => random.pick(likely),
    };
    if new == old {
        !old
    } else {
        new
    }
}

/// The same for an operand.
fn other_word(random: &mut Random, old: u64, likely: &[u64]) -> u64 {
    let new = match random.below(6) {
        0 => old.wrapping_add(1),
        1 => old.wrapping_sub(1),
        2 => old ^ (1 << random.below(64)),
        3 => old ^ (u64::from(random.byte()) << (8 * random.below(8))),
        4 => random.bits(),
        _ => random.pick(likely),
    };
    if new == old {
        !old
    } else {
        new
    }
}
