//! Programs of instructions at random, after a block that puts records and labels into registers.

use super::integer;
use crate::assemble::{
    fork, halt, if_jump, join, jralloc, jump, mov, op, pop, push, word, Annotation, Assembly,
    Operand,
};
use crate::layout::{pair, InstructionRecord};
use crate::random::Random;
use model::{most_pairs, VERSION_2};
use Operand::{Int, Lab, Reg};

pub fn program(random: &mut Random, version: u16, word_count: usize) -> Vec<u8> {
    let block_count = random.between(3, 12);
    let label = |random: &mut Random| random.between(1, block_count - 1) as u8;
    let mut wild = Assembly::default();
    let entry = wild.reserve();
    // Block 1 is a join target, so that the entry can make records.
    for number in 1..block_count {
        let linked = label(random);
        let annotation = match random.below(3) {
            _ if number == 1 => join_target(random, version, linked),
            0 => Annotation::None,
            1 => Annotation::PromotionReady { handler: linked },
            _ => join_target(random, version, linked),
        };
        let mut code = Vec::new();
        for _ in 0..random.between(0, 7) {
            let target = label(random);
            code.push(if version == VERSION_2 && random.one_in(4) {
                stacking(random, target)
            } else {
                any(random, target, word_count)
            });
        }
        let target = label(random);
        code.push(match random.below(8) {
            0 => halt(),
            1..=3 => jump(Lab(target)),
            4 => jump(Reg(random.between(8, 15) as u8)),
            _ => join(Reg(random.between(8, 11) as u8)),
        });
        wild.block(annotation, &code);
    }
    let mut code = vec![jralloc(8, Lab(1)), jralloc(9, Lab(1))];
    code.extend((12..16).map(|r| mov(r, Lab(label(random)))));
    code.push(jump(Lab(label(random))));
    wild.fill(entry, code);
    wild.image_of(version)
}

fn join_target(random: &mut Random, version: u16, combining: u8) -> Annotation {
    let mut pairs = Vec::new();
    for target in 0..16 {
        if pairs.len() < most_pairs(version) && random.one_in(6) {
            pairs.push(pair(random.below(16) as u8, target));
        }
    }
    Annotation::JoinTarget {
        policy: random.below(2) as u8,
        combining,
        pairs,
    }
}

/// A push of any value, or a pop, mostly into a register for labels.
fn stacking(random: &mut Random, target: u8) -> InstructionRecord {
    match random.below(8) {
        0..=2 => push(Lab(target)),
        3 => push(Reg(random.below(16) as u8)),
        4 => push(Int(integer(random))),
        5 => pop(random.below(16) as u8),
        _ => pop(random.between(12, 15) as u8),
    }
}

/// Any instruction that ends no block: r0 to r7 mostly for integers, r8 to r11 for records, r12 to
/// r15 for labels.
fn any(random: &mut Random, target: u8, word_count: usize) -> InstructionRecord {
    let r = random.below(8) as u8;
    let registers = random.pick(&[8, 8, 8, 8, 8, 8, 8, 16]);
    let s = random.below(registers) as u8;
    let record = random.between(8, 11) as u8;
    let v = match random.below(16) {
        0 => Lab(target),
        1 => Reg(random.below(16) as u8),
        2..=7 => Reg(random.below(8) as u8),
        _ => Int(integer(random)),
    };
    let to_label = match random.below(16) {
        0 => v,
        1..=4 => Reg(random.between(12, 15) as u8),
        _ => Lab(target),
    };
    match random.below(16) {
        0 => mov(random.below(16) as u8, v),
        1 => mov(r, v),
        2..=6 => op(random.between(2, 8) as u8, r, s, v),
        7 => word(r, Int(random.below(word_count + 1) as i64)),
        8 | 9 => if_jump(s, to_label),
        10 | 11 => jralloc(record, to_label),
        _ => fork(record, to_label),
    }
}
