//! Code that faults, with each number and in several ways.

use super::integer;
use crate::assemble::{
    fork, halt, if_jump, join, jralloc, jump, mov, op, pop, push, word, Assembly, Operand,
};
use crate::layout::InstructionRecord;
use crate::random::Random;
use model::opcode::{ADD, DIVIDE, EQUAL, REMAINDER};
use model::task::MAX_DEPTH;
use model::{fault, MAX_WORDS, VERSION_2};
use Operand::{Int, Lab, Reg};

/// A register that no other code counts on.
pub const SCRATCH: u8 = 15;

/// Where the code stands.
#[derive(Clone, Copy)]
pub struct Place {
    /// A register with a record that fits, if there is one.
    pub record: Option<u8>,
    /// A block that is no join target.
    pub plain: u8,
    /// A join target.
    pub target: u8,
    /// A block that joins by the scratch register.
    pub joiner: u8,
    /// In version 2, the blocks that push and pop for ever.
    pub stackers: Option<Stackers>,
    pub word_count: usize,
}

/// Blocks that end with the stack full, and empty, whatever it held before.
#[derive(Clone, Copy)]
pub struct Stackers {
    full: u8,
    empty: u8,
}

impl Stackers {
    /// Of a program of this version.
    pub fn of(random: &mut Random, version: u16, assembly: &mut Assembly) -> Option<Self> {
        if version != VERSION_2 {
            return None;
        }
        let [full, empty] = [(); 2].map(|()| assembly.reserve());
        let pushed = random.pick(&[Int(-1), Lab(full), Reg(SCRATCH)]);
        assembly.fill(full, vec![push(pushed), jump(Lab(full))]);
        assembly.fill(empty, vec![pop(SCRATCH), jump(Lab(empty))]);
        Some(Stackers { full, empty })
    }
}

/// Code that faults with this number, with what it needs before. Its last instruction ends a block
/// or not, as it comes. 37 takes as many forks as there are places left, 38 an open fork, 42 and 43
/// version 2.
pub fn code(random: &mut Random, number: u8, place: Place) -> Vec<InstructionRecord> {
    match number {
        fault::FULL => place
            .stackers
            .map_or_else(Vec::new, |s| vec![jump(Lab(s.full))]),
        fault::EMPTY => place
            .stackers
            .map_or_else(Vec::new, |s| vec![jump(Lab(s.empty))]),
        fault::INTEGERS => not_integers(random, place),
        fault::DIVISOR => by_zero(random),
        fault::INDEX => outside(random, place),
        fault::TARGET => no_label(random, place),
        fault::JOIN_TARGET => no_join_target(random, place),
        fault::RECORD => no_record(random, place),
        fault::PLACES => too_many_forks(random, place),
        _ => vec![halt()],
    }
}

/// A register with a record, and the code that puts one there.
fn record(place: Place) -> (Vec<InstructionRecord>, u8) {
    match place.record {
        Some(register) => (Vec::new(), register),
        None => (vec![jralloc(SCRATCH, Lab(place.target))], SCRATCH),
    }
}

fn not_integers(random: &mut Random, place: Place) -> Vec<InstructionRecord> {
    let (mut code, record) = record(place);
    let opcode = random.between(ADD.into(), EQUAL.into()) as u8;
    let label = mov(14, Lab(place.plain));
    match random.below(6) {
        0 => vec![op(opcode, 0, 0, Lab(place.plain))],
        1 => vec![label, op(opcode, 0, 14, Int(0))],
        2 => vec![label, word(0, Reg(14))],
        3 => vec![label, if_jump(14, Int(1))],
        4 => {
            code.push(op(opcode, 0, record, Reg(record)));
            code
        }
        _ => {
            code.push(if_jump(record, Lab(place.plain)));
            code
        }
    }
}

fn by_zero(random: &mut Random) -> Vec<InstructionRecord> {
    let opcode = random.pick(&[DIVIDE, REMAINDER]);
    let dividend = mov(14, Int(integer(random)));
    if random.one_in(2) {
        return vec![dividend, op(opcode, 0, 14, Int(0))];
    }
    vec![
        dividend,
        mov(SCRATCH, Int(0)),
        op(opcode, 0, 14, Reg(SCRATCH)),
    ]
}

fn outside(random: &mut Random, place: Place) -> Vec<InstructionRecord> {
    let count = place.word_count as i64;
    let index = random.pick(&[-1, count, count + 1, MAX_WORDS as i64, i64::MIN, i64::MAX]);
    if random.one_in(2) {
        return vec![word(0, Int(index))];
    }
    vec![mov(SCRATCH, Int(index)), word(0, Reg(SCRATCH))]
}

fn no_label(random: &mut Random, place: Place) -> Vec<InstructionRecord> {
    let (mut code, record) = record(place);
    code.extend(match random.below(5) {
        0 => vec![jump(Int(integer(random)))],
        1 => vec![jump(Reg(record))],
        2 => vec![mov(14, Int(0)), if_jump(14, Reg(record))],
        3 => vec![mov(14, Int(0)), if_jump(14, Int(integer(random)))],
        // Asked before the places.
        _ => vec![fork(record, Int(0))],
    });
    code
}

fn no_join_target(random: &mut Random, place: Place) -> Vec<InstructionRecord> {
    match random.below(3) {
        0 => vec![jralloc(0, Int(place.target.into()))],
        1 => vec![jralloc(0, Lab(place.plain))],
        _ => {
            let (mut code, record) = record(place);
            code.push(jralloc(0, Reg(record)));
            code
        }
    }
}

fn no_record(random: &mut Random, place: Place) -> Vec<InstructionRecord> {
    match random.below(5) {
        0 => vec![join(Int(0))],
        1 => vec![join(Lab(place.target))],
        2 => vec![mov(14, Int(0)), fork(14, Lab(place.plain))],
        // Asked before the target and the places.
        3 => vec![mov(14, Lab(place.target)), fork(14, Int(0))],
        _ => vec![mov(14, Lab(place.target)), join(Reg(14))],
    }
}

fn too_many_forks(random: &mut Random, place: Place) -> Vec<InstructionRecord> {
    let (mut code, record) = record(place);
    code.push(mov(SCRATCH, Reg(record)));
    for _ in 0..=MAX_DEPTH {
        code.push(fork(record, Lab(place.joiner)));
        if random.one_in(3) {
            code.push(op(ADD, 0, 0, Int(1)));
        }
    }
    code
}
