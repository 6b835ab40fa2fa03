//! Programs of one block that forks itself, all under one record, until each task has gone down a
//! given number of forks. The tasks at the leaves are told apart by their paths, and some of them
//! fault. In version 2 each task pushes its path before it forks, and the joined one pops it.

use super::mishap::{self, Place, Stackers, SCRATCH};
use super::nested::end_block;
use crate::assemble::{
    fork, halt, if_jump, join, jralloc, jump, mov, op, pop, push, Annotation, Assembly, Operand,
};
use crate::layout::{pair, InstructionRecord};
use crate::random::Random;
use model::opcode::{ADD, EQUAL, LESS, MULTIPLY, REMAINDER, SUBTRACT};
use model::{fault, VERSION_1, VERSION_2};
use Operand::{Int, Lab, Reg};

const LEFT: u8 = 0;
const PATH: u8 = 1;
const SUM: u8 = 2;
const CHILDS_SUM: u8 = 3;
const TEST: u8 = 4;
const SPIN: u8 = 5;
const ROUNDS: u8 = 6;
const RECORD: u8 = 8;

pub fn program(random: &mut Random, version: u16, halvings: usize, word_count: usize) -> Vec<u8> {
    // As deep as the places go, mostly; sometimes deeper.
    let depth = match random.below(8) {
        0 => random.between(0, halvings),
        1 => halvings + 1,
        _ => halvings,
    };
    let mut tree = Assembly::default();
    let entry = tree.reserve();
    let round = tree.reserve();
    let split = tree.reserve();
    let child = tree.reserve();
    let leaf = tree.reserve();
    let spin = tree.reserve();
    let done = tree.reserve();
    let continuation = tree.reserve();
    let combining = tree.reserve();
    let over = tree.reserve();
    let joiner = tree.block(Annotation::None, &[join(Reg(SCRATCH))]);
    let stackers = Stackers::of(random, version, &mut tree);

    let rounds = random.pick(&[1, 1, 2]);
    let mut code = vec![mov(ROUNDS, Int(rounds)), jump(Lab(round))];
    if random.one_in(8) {
        // Nothing but a fault at depth 0.
        let place = Place {
            record: None,
            plain: entry,
            target: continuation,
            joiner,
            stackers,
            word_count,
        };
        code = fault_code(random, place);
    }
    tree.fill(entry, code);
    tree.fill(
        round,
        vec![
            jralloc(RECORD, Lab(continuation)),
            mov(LEFT, Int(depth as i64)),
            mov(PATH, Int(1)),
            jump(Lab(split)),
        ],
    );
    let mut code = vec![
        op(LESS, TEST, LEFT, Int(1)),
        if_jump(TEST, Lab(leaf)),
        op(SUBTRACT, LEFT, LEFT, Int(1)),
        op(MULTIPLY, PATH, PATH, Int(2)),
        fork(RECORD, Lab(child)),
        jump(Lab(split)),
    ];
    if version == VERSION_2 {
        code.insert(4, push(Reg(PATH)));
    }
    tree.fill(split, code);
    tree.fill(child, vec![op(ADD, PATH, PATH, Int(1)), jump(Lab(split))]);

    let place = Place {
        record: Some(RECORD),
        plain: entry,
        target: continuation,
        joiner,
        stackers,
        word_count,
    };
    let mut code = Vec::new();
    for _ in 0..random.pick(&[0, 0, 1, 2, 4]) {
        // Those of paths that leave a given remainder fault alike.
        let divisor = random.pick(&[1, 2, 3, 8, 64]);
        let bad_code = fault_code(random, place);
        let bad = tree.block(Annotation::None, &bad_code);
        code.push(op(REMAINDER, TEST, PATH, Int(divisor)));
        code.push(op(
            EQUAL,
            TEST,
            TEST,
            Int(random.below(divisor as usize) as i64),
        ));
        code.push(if_jump(TEST, Lab(bad)));
    }
    code.push(op(MULTIPLY, SUM, PATH, Reg(PATH)));
    code.push(op(REMAINDER, SPIN, PATH, Int(random.between(1, 7) as i64)));
    code.push(jump(Lab(spin)));
    tree.fill(leaf, code);
    tree.fill(
        spin,
        vec![
            if_jump(SPIN, Lab(done)),
            op(SUBTRACT, SPIN, SPIN, Int(1)),
            jump(Lab(spin)),
        ],
    );
    tree.fill(done, vec![join(Reg(RECORD))]);

    // Not commutative, so that a join the wrong way round shows.
    let mut code = vec![
        op(MULTIPLY, SUM, SUM, Int(3)),
        op(ADD, SUM, SUM, Reg(CHILDS_SUM)),
    ];
    if version == VERSION_2 {
        code.extend([pop(TEST), op(SUBTRACT, SUM, SUM, Reg(TEST))]);
    }
    if random.one_in(8) {
        code.extend(fault_code(random, place));
    }
    end_block(&mut code, Some(RECORD));
    tree.fill(combining, code);
    tree.annotate(
        continuation,
        Annotation::JoinTarget {
            policy: random.below(2) as u8,
            combining,
            pairs: vec![pair(SUM, CHILDS_SUM)],
        },
    );
    let again = [
        op(SUBTRACT, ROUNDS, ROUNDS, Int(1)),
        if_jump(ROUNDS, Lab(over)),
        jump(Lab(round)),
    ];
    tree.fill(continuation, again.to_vec());
    tree.fill(over, vec![halt()]);
    tree.image_of(version)
}

fn fault_code(random: &mut Random, place: Place) -> Vec<InstructionRecord> {
    let version = place.stackers.map_or(VERSION_1, |_| VERSION_2);
    let number = random.pick(fault::of(version));
    let mut code = mishap::code(random, number, place);
    end_block(&mut code, place.record);
    code
}
