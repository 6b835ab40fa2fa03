//! Programs of subroutines. A caller pushes the label that control comes back to and jumps; the
//! subroutine pops it and jumps there.

use super::integer;
use crate::assemble::{
    fork, halt, if_jump, join, jralloc, jump, mov, op, pop, push, Annotation, Assembly, Operand,
};
use crate::layout::{pair, InstructionRecord};
use crate::random::Random;
use model::opcode::{ADD, LESS, MULTIPLY, SUBTRACT};
use model::VERSION_2;
use Operand::{Int, Lab, Reg};

const RESULT: u8 = 0;
const CHILDS_RESULT: u8 = 1;
const COUNT: u8 = 2;
const TEST: u8 = 3;
const ROUNDS: u8 = 4;
const RECORD: u8 = 8;
/// The label that a subroutine goes back to.
const BACK: u8 = 12;

pub fn program(random: &mut Random, halvings: usize) -> Vec<u8> {
    match random.below(4) {
        0 => from_two_places(random),
        1 => recursion(random),
        2 => recursion_in_a_side(random),
        _ => recursion_with_forks(random, halvings),
    }
}

fn call(subroutine: u8, back: u8) -> [InstructionRecord; 2] {
    [push(Lab(back)), jump(Lab(subroutine))]
}

fn back() -> [InstructionRecord; 2] {
    [pop(BACK), jump(Reg(BACK))]
}

/// A loop with two calls of one subroutine, which may call another. Once in a while a pop too many, or
/// one too few.
fn from_two_places(random: &mut Random) -> Vec<u8> {
    let mut calls = Assembly::default();
    let entry = calls.reserve();
    let [first, second, again, over] = [(); 4].map(|()| calls.reserve());
    let [subroutine, inner, returned] = [(); 3].map(|()| calls.reserve());
    let rounds = random.between(1, 12) as i64;
    calls.fill(entry, vec![mov(ROUNDS, Int(rounds)), jump(Lab(first))]);
    calls.fill(first, call(subroutine, second).to_vec());
    let mut code = vec![op(ADD, RESULT, RESULT, Int(1))];
    code.extend(call(subroutine, again));
    calls.fill(second, code);
    let mut code = vec![
        op(SUBTRACT, ROUNDS, ROUNDS, Int(1)),
        if_jump(ROUNDS, Lab(over)),
        jump(Lab(first)),
    ];
    match random.below(8) {
        0 => code.insert(0, pop(TEST)),
        // After enough rounds the stack is full.
        1 => code.insert(0, push(random.pick(&[Reg(ROUNDS), Lab(over)]))),
        _ => {}
    }
    calls.fill(again, code);
    calls.fill(over, vec![halt()]);
    let step = op(MULTIPLY, RESULT, RESULT, Int(integer(random)));
    let mut code = vec![step];
    if random.one_in(2) {
        code.push(push(Reg(RESULT)));
        code.extend(call(inner, returned));
    } else {
        code.extend(back());
    }
    calls.fill(subroutine, code);
    let mut code = vec![pop(TEST), op(ADD, RESULT, RESULT, Reg(TEST))];
    code.extend(back());
    calls.fill(returned, code);
    let mut code = vec![op(ADD, RESULT, RESULT, Reg(ROUNDS))];
    code.extend(back());
    calls.fill(inner, code);
    calls.image()
}

/// Block `subroutine` and two more: it calls itself `COUNT` times, with two values on the stack for
/// each, and comes back with a result in which the order counts.
fn fill_recursion(calls: &mut Assembly, subroutine: u8) {
    let [returned, base] = [(); 2].map(|()| calls.reserve());
    let mut code = vec![
        if_jump(COUNT, Lab(base)),
        push(Reg(COUNT)),
        op(SUBTRACT, COUNT, COUNT, Int(1)),
    ];
    code.extend(call(subroutine, returned));
    calls.fill(subroutine, code);
    let mut code = vec![
        pop(TEST),
        op(MULTIPLY, RESULT, RESULT, Int(3)),
        op(ADD, RESULT, RESULT, Reg(TEST)),
    ];
    code.extend(back());
    calls.fill(returned, code);
    calls.fill(base, back().to_vec());
}

/// How often a subroutine calls itself: 15 calls are the most that there is room for.
fn calls_of_itself(random: &mut Random) -> i64 {
    random.pick(&[0, 1, 3, 7, 14, 15, 16, 40])
}

fn recursion(random: &mut Random) -> Vec<u8> {
    let mut calls = Assembly::default();
    let [entry, over, subroutine] = [(); 3].map(|()| calls.reserve());
    let mut code = vec![mov(COUNT, Int(calls_of_itself(random)))];
    if random.one_in(8) {
        // It comes back once too often.
        code.push(jump(Lab(subroutine)));
    } else {
        code.extend(call(subroutine, over));
    }
    calls.fill(entry, code);
    calls.fill(over, vec![halt()]);
    fill_recursion(&mut calls, subroutine);
    calls.image_of(VERSION_2)
}

/// A task with something on its stack forks; either side calls the subroutine, and the joined task
/// pops what was pushed before.
fn recursion_in_a_side(random: &mut Random) -> Vec<u8> {
    let mut calls = Assembly::default();
    let entry = calls.reserve();
    let [child, joining, combining, exit, subroutine] = [(); 5].map(|()| calls.reserve());
    let held = random.pick(&[0, 1, 5, 30]);
    let mut code = vec![jralloc(RECORD, Lab(exit))];
    for _ in 0..held {
        code.push(push(random.pick(&[Reg(RECORD), Lab(exit), Int(5)])));
    }
    code.push(fork(RECORD, Lab(child)));
    code.push(mov(COUNT, Int(calls_of_itself(random))));
    code.extend(call(subroutine, joining));
    calls.fill(entry, code);
    let mut code = vec![mov(COUNT, Int(calls_of_itself(random)))];
    if random.one_in(6) {
        // What the parent pushed is not the child's.
        code.push(pop(TEST));
    }
    code.extend(call(subroutine, joining));
    calls.fill(child, code);
    calls.fill(joining, vec![join(Reg(RECORD))]);
    let sum = op(ADD, RESULT, RESULT, Reg(CHILDS_RESULT));
    calls.fill(combining, vec![sum, join(Reg(RECORD))]);
    let mut code = vec![pop(13); held + usize::from(random.one_in(6))];
    code.push(halt());
    calls.fill(exit, code);
    calls.annotate(exit, join_target(random, combining));
    fill_recursion(&mut calls, subroutine);
    calls.image_of(VERSION_2)
}

/// A subroutine that calls itself twice, in a parent's side and in a child's, as Fibonacci numbers are
/// made. The record of the call around it is on the stack meanwhile.
fn recursion_with_forks(random: &mut Random, halvings: usize) -> Vec<u8> {
    let mut calls = Assembly::default();
    let [entry, over, subroutine, base] = [(); 4].map(|()| calls.reserve());
    let [child, joining, both, combining] = [(); 4].map(|()| calls.reserve());
    // One more fork than there are places for, once in a while.
    let most = halvings + 1 + usize::from(random.one_in(6));
    let mut code = vec![mov(COUNT, Int(random.between(0, most) as i64))];
    code.extend(call(subroutine, over));
    calls.fill(entry, code);
    calls.fill(over, vec![halt()]);
    let mut code = vec![
        op(LESS, TEST, COUNT, Int(2)),
        if_jump(TEST, Lab(base)),
        push(Reg(RECORD)),
        push(Reg(COUNT)),
        jralloc(RECORD, Lab(both)),
        fork(RECORD, Lab(child)),
        op(SUBTRACT, COUNT, COUNT, Int(1)),
    ];
    code.extend(call(subroutine, joining));
    calls.fill(subroutine, code);
    let mut code = vec![op(SUBTRACT, COUNT, COUNT, Int(2))];
    code.extend(call(subroutine, joining));
    calls.fill(child, code);
    calls.fill(joining, vec![join(Reg(RECORD))]);
    let sum = op(ADD, RESULT, RESULT, Reg(CHILDS_RESULT));
    calls.fill(combining, vec![sum, join(Reg(RECORD))]);
    let mut code = vec![pop(COUNT), pop(RECORD)];
    code.extend(back());
    calls.fill(both, code);
    calls.annotate(both, join_target(random, combining));
    let mut code = vec![mov(RESULT, Reg(COUNT))];
    code.extend(back());
    calls.fill(base, code);
    calls.image_of(VERSION_2)
}

/// The child's result to the parent's task, and up to seven others that nothing reads.
fn join_target(random: &mut Random, combining: u8) -> Annotation {
    let others = random.pick(&[0, 0, 3, 7]);
    let others = [TEST, 5, 6, 7, 9, 10, 11].into_iter().take(others);
    let mut pairs = vec![pair(RESULT, CHILDS_RESULT)];
    pairs.extend(others.map(|target| pair(random.below(8) as u8, target)));
    Annotation::JoinTarget {
        policy: random.below(2) as u8,
        combining,
        pairs,
    }
}
