//! States that meet the shape test though no order may lead to them.

use super::walk::slots_with;
use crate::random::Random;
use model::numbers::{number_at, write};
use model::state::{FORKS_AT, HEIGHT_AT, JOB_NUMBERS, REGISTERS_AT, SLOT_NUMBERS, STACK_AT};
use model::{Program, REGISTERS, STACK, WORK_LIMIT};

const RUNNING: u64 = 1;
const WAITING: u64 = 2;
const HALTED: u64 = 3;

/// Places of a slot's numbers.
const PLACES: usize = 2;
const PROGRAM_COUNTER: usize = 3;
const COUNTER: usize = 4;
const SPAN: usize = 5;
const DEPTH: usize = 6;

fn set(state: &mut [u8], index: usize, number: u64) {
    write([number], &mut state[8 * index..]);
}

/// A number of 32 bits, small ones mostly.
fn depth(random: &mut Random) -> u64 {
    match random.below(8) {
        0 => random.pick(&[255, 256, 65_536, 1 << 31, u32::MAX.into()]),
        1 => random.bits() >> 32,
        _ => random.below(8) as u64,
    }
}

/// Draws anew what the shape test leaves open: the interval; of each task where it stands, what it has
/// counted, what its open forks and registers name, and its stack; of a task that is alone its
/// places.
pub fn redraw(random: &mut Random, program: &Program, state: &mut [u8]) {
    let targets: Vec<u64> = (0..)
        .zip(&program.blocks)
        .filter(|(_, block)| block.is_join_target())
        .map(|(label, _)| label)
        .collect();
    if random.one_in(2) {
        set(state, 1, random.pick(&[0, 8, 9, 10, 20, 65_535]));
    }
    if number_at(state, JOB_NUMBERS + DEPTH) == 0 && random.one_in(2) {
        let places = 1 << random.below(7);
        set(state, 0, places);
        set(state, JOB_NUMBERS + PLACES, places);
    }
    let work = number_at(state, 2);
    let upto_work = |random: &mut Random| random.below(work as usize + 1) as u64;
    for status in [RUNNING, WAITING, HALTED] {
        for slot in slots_with(state, status) {
            let first = JOB_NUMBERS + SLOT_NUMBERS * slot;
            if status == RUNNING {
                let pc = random.below(program.instructions.len()) as u64;
                set(state, first + PROGRAM_COUNTER, pc);
                set(state, first + COUNTER, upto_work(random));
            }
            set(state, first + SPAN, upto_work(random));
            for fork in 0..number_at(state, first + DEPTH) as usize {
                let at = first + FORKS_AT + 2 * fork;
                if random.one_in(2) {
                    set(state, at, random.pick(&targets));
                    set(state, at + 1, depth(random));
                }
            }
            for register in 0..REGISTERS {
                let at = first + REGISTERS_AT + 3 * register;
                if !random.one_in(4) {
                    let value = value(random, program, &targets);
                    write(value, &mut state[8 * at..]);
                }
            }
            if random.one_in(2) {
                redraw_stack(random, program, &targets, &mut state[8 * first..]);
            }
        }
    }
}

/// The numbers of a value that is the program's.
fn value(random: &mut Random, program: &Program, targets: &[u64]) -> [u64; 3] {
    match random.below(6) {
        0 | 1 if !targets.is_empty() => [2, random.pick(targets), depth(random)],
        2 => [1, random.below(program.blocks.len()) as u64, 0],
        _ => [0, random.bits() >> random.below(64), 0],
    }
}

/// Of a task whose numbers begin here. A program of version 1 may find values there too.
fn redraw_stack(random: &mut Random, program: &Program, targets: &[u64], slot: &mut [u8]) {
    let any = random.below(STACK + 1);
    let height = random.pick(&[0, 1, STACK - 1, STACK, any]);
    set(slot, HEIGHT_AT, height as u64);
    for entry in 0..STACK {
        let numbers = if entry < height {
            value(random, program, targets)
        } else {
            [0; 3]
        };
        write(numbers, &mut slot[8 * (STACK_AT + 3 * entry)..]);
    }
}

/// Sets the work to this many below its limit, and now and then a running task's counter and span to
/// the work.
pub fn near_the_limit(random: &mut Random, left: u64, state: &mut [u8]) {
    let work = u64::from(WORK_LIMIT) - left;
    set(state, 2, work);
    for slot in slots_with(state, RUNNING) {
        let first = JOB_NUMBERS + SLOT_NUMBERS * slot;
        for at in [COUNTER, SPAN] {
            if random.one_in(4) {
                set(state, first + at, work);
            }
        }
    }
}
