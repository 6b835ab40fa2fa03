//! Every instruction, and the order of its questions.

use super::*;
use crate::image::Block;
use crate::opcode::*;
use crate::sample::{instruction, pop, push, second, Operand, HALT, PLAIN as BLOCK};
use crate::STACK;
use Operand::{Int, Lab, Reg};

/// The blocks of the program that an instruction is tried in.
const PLAIN: u8 = 1;
const READY: u8 = 2;
const HANDLER: u8 = 3;
const TARGET: u8 = 4;
const OTHER_TARGET: u8 = 5;

/// Registers that hold what their names say.
const LABEL: u8 = 12;
const RECORD: u8 = 13;
const OTHER_RECORD: u8 = 14;
const DEEPER_RECORD: u8 = 15;

const WORDS: [i64; 3] = [70, 80, 90];

fn record(continuation: u8, depth: u32) -> Record {
    Record {
        continuation,
        depth,
    }
}

/// A task at this depth, its forks all under the record of register 13, which was made at depth 0.
fn task(depth: usize) -> Task {
    let mut task = Task::new(&[0; 16], 8);
    for _ in 0..depth {
        task.open_fork(record(TARGET, 0));
    }
    task.registers[usize::from(LABEL)] = Value::Label(PLAIN);
    task.registers[usize::from(RECORD)] = Value::Record(record(TARGET, 0));
    task.registers[usize::from(OTHER_RECORD)] = Value::Record(record(OTHER_TARGET, 0));
    task.registers[usize::from(DEEPER_RECORD)] = Value::Record(record(TARGET, depth as u32 + 1));
    task
}

fn program_with(tried: Instruction) -> Program {
    let target = Block {
        annotation: 2,
        label: 1,
        ..BLOCK
    };
    let ready = Block {
        annotation: 1,
        label: HANDLER,
        ..BLOCK
    };
    second(&[
        (BLOCK, &[tried, HALT]),
        (BLOCK, &[HALT]),
        (ready, &[HALT]),
        (BLOCK, &[HALT]),
        (target, &[HALT]),
        (target, &[HALT]),
    ])
}

fn issue_with(task: &mut Task, tried: Instruction, interval: u16) -> Step {
    let program = program_with(tried);
    task.step(&Surroundings {
        program: &program,
        words: &WORDS,
        interval,
    })
}

fn issue(task: &mut Task, tried: Instruction) -> Step {
    issue_with(task, tried, 0)
}

/// The fault of an instruction on a fresh task of this depth, 0 if there is none.
fn fault_at(depth: usize, tried: Instruction) -> u8 {
    fault_of(issue(&mut task(depth), tried))
}

fn fault_of(step: Step) -> u8 {
    match step {
        Step::Fault(number) => number,
        _ => 0,
    }
}

fn first_of(block: u8) -> u16 {
    program_with(HALT).blocks[usize::from(block)].first
}

fn result(opcode: u8, a: i64, b: i64) -> i64 {
    let mut with_register = task(0);
    with_register.registers[1] = Value::Int(a);
    with_register.registers[2] = Value::Int(b);
    let mut with_integer = with_register.clone();
    assert_eq!(
        issue(&mut with_register, instruction(opcode, 3, 1, Reg(2))),
        Step::Onward
    );
    assert_eq!(
        issue(&mut with_integer, instruction(opcode, 3, 1, Int(b))),
        Step::Onward
    );
    assert_eq!(with_register, with_integer);
    match with_register.registers[3] {
        Value::Int(result) => result,
        other => panic!("{:?}", other),
    }
}

#[test]
fn sums_differences_and_products_keep_the_low_64_bits() {
    assert_eq!(result(ADD, 2, 3), 5);
    assert_eq!(result(ADD, i64::MAX, 1), i64::MIN);
    assert_eq!(result(ADD, i64::MIN, i64::MIN), 0);
    assert_eq!(result(SUBTRACT, 2, 3), -1);
    assert_eq!(result(SUBTRACT, i64::MIN, 1), i64::MAX);
    assert_eq!(result(SUBTRACT, 0, i64::MIN), i64::MIN);
    assert_eq!(result(MULTIPLY, -4, 3), -12);
    assert_eq!(result(MULTIPLY, i64::MIN, -1), i64::MIN);
    assert_eq!(result(MULTIPLY, i64::MAX, i64::MAX), 1);
    assert_eq!(result(MULTIPLY, 1 << 32, 1 << 31), i64::MIN);
    assert_eq!(result(MULTIPLY, 1 << 32, 1 << 32), 0);
}

#[test]
fn division_goes_toward_zero() {
    for (a, b, quotient, remainder) in [
        (7, 2, 3, 1),
        (-7, 2, -3, -1),
        (7, -2, -3, 1),
        (-7, -2, 3, -1),
        (6, 3, 2, 0),
        (1, i64::MIN, 0, 1),
        (i64::MIN, i64::MIN, 1, 0),
        (i64::MIN, -1, i64::MIN, 0),
        (i64::MIN, 1, i64::MIN, 0),
        (i64::MIN, 2, i64::MIN / 2, 0),
        (i64::MAX, -1, -i64::MAX, 0),
    ] {
        assert_eq!(result(DIVIDE, a, b), quotient, "{} / {}", a, b);
        assert_eq!(result(REMAINDER, a, b), remainder, "{} % {}", a, b);
    }
}

#[test]
fn comparisons_give_0_when_true() {
    for (a, b, less, equal) in [
        (1, 2, 0, 1),
        (2, 2, 1, 0),
        (3, 2, 1, 1),
        (-1, 0, 0, 1),
        (i64::MIN, i64::MAX, 0, 1),
        (i64::MAX, i64::MIN, 1, 1),
    ] {
        assert_eq!(result(LESS, a, b), less);
        assert_eq!(result(EQUAL, a, b), equal);
    }
}

#[test]
fn moves_take_any_value() {
    for (v, value) in [
        (Int(-5), Value::Int(-5)),
        (Int(i64::MIN), Value::Int(i64::MIN)),
        (Lab(READY), Value::Label(READY)),
        (Reg(LABEL), Value::Label(PLAIN)),
        (Reg(RECORD), Value::Record(record(TARGET, 0))),
    ] {
        let mut task = task(2);
        assert_eq!(issue(&mut task, instruction(MOVE, 4, 0, v)), Step::Onward);
        assert_eq!(task.registers[4], value);
        assert_eq!(task.pc, 1);
    }
}

#[test]
fn both_operands_are_integers_before_the_divisor_is_looked_at() {
    for opcode in ADD..=EQUAL {
        for bad in [LABEL, RECORD] {
            assert_eq!(fault_at(0, instruction(opcode, 0, bad, Int(0))), 31);
            assert_eq!(fault_at(1, instruction(opcode, 0, 0, Reg(bad))), 31);
            assert_eq!(fault_at(2, instruction(opcode, 0, bad, Reg(bad))), 31);
        }
        assert_eq!(fault_at(0, instruction(opcode, 0, 0, Lab(PLAIN))), 31);
    }
    for opcode in [DIVIDE, REMAINDER] {
        assert_eq!(fault_at(0, instruction(opcode, 0, 0, Int(0))), 32);
        assert_eq!(fault_at(3, instruction(opcode, 0, 0, Reg(1))), 32);
    }
}

#[test]
fn words_are_counted_from_0() {
    for (index, word) in WORDS.iter().enumerate() {
        let mut task = task(0);
        let tried = instruction(WORD, 4, 0, Int(index as i64));
        assert_eq!(issue(&mut task, tried), Step::Onward);
        assert_eq!(task.registers[4], Value::Int(*word));
    }
    for index in [-1, 3, 4, 1 << 32, 1 << 62, i64::MIN, i64::MAX] {
        assert_eq!(fault_at(0, instruction(WORD, 0, 0, Int(index))), 33);
    }
    for v in [Lab(0), Reg(LABEL), Reg(RECORD)] {
        assert_eq!(fault_at(0, instruction(WORD, 0, 0, v)), 31);
    }
}

#[test]
fn if_jump_looks_at_the_target_only_when_it_jumps() {
    for bad in [LABEL, RECORD] {
        assert_eq!(fault_at(0, instruction(IF_JUMP, 0, bad, Int(0))), 31);
    }
    for target in [Int(1), Reg(0), Reg(RECORD)] {
        assert_eq!(fault_at(1, instruction(IF_JUMP, 0, 0, target)), 34);
        for integer in [1, -1, i64::MIN, 1 << 32] {
            let mut task = task(1);
            task.registers[0] = Value::Int(integer);
            let tried = instruction(IF_JUMP, 0, 0, target);
            assert_eq!(issue(&mut task, tried), Step::Onward);
            assert_eq!(task.pc, 1);
        }
    }
    for target in [Lab(PLAIN), Reg(LABEL)] {
        let mut task = task(0);
        let tried = instruction(IF_JUMP, 0, 0, target);
        assert_eq!(issue(&mut task, tried), Step::Onward);
        assert_eq!(task.pc, first_of(PLAIN));
    }
}

#[test]
fn jump_takes_a_label() {
    for target in [Int(1), Reg(0), Reg(RECORD)] {
        assert_eq!(fault_at(0, instruction(JUMP, 0, 0, target)), 34);
    }
    let mut task = task(0);
    let tried = instruction(JUMP, 0, 0, Reg(LABEL));
    assert_eq!(issue(&mut task, tried), Step::Onward);
    assert_eq!(task.pc, first_of(PLAIN));
}

#[test]
fn jralloc_takes_a_label_of_a_join_target() {
    for v in [Lab(0), Lab(PLAIN), Lab(READY), Reg(LABEL), Reg(RECORD)] {
        assert_eq!(fault_at(1, instruction(JRALLOC, 0, 0, v)), 35);
    }
    assert_eq!(fault_at(0, instruction(JRALLOC, 0, 0, Int(4))), 35);
    for depth in 0..=6 {
        let mut task = task(depth);
        let tried = instruction(JRALLOC, 3, 0, Lab(OTHER_TARGET));
        assert_eq!(issue(&mut task, tried), Step::Onward);
        let made = Value::Record(record(OTHER_TARGET, depth as u32));
        assert_eq!(task.registers[3], made);
    }
}

#[test]
fn fork_asks_for_the_record_then_the_target_then_the_places() {
    let with_places = |places, tried| {
        let mut task = task(1);
        task.places = places;
        issue(&mut task, tried)
    };
    for bad in [0, LABEL, OTHER_RECORD, DEEPER_RECORD] {
        let tried = instruction(FORK, 0, bad, Int(0));
        assert_eq!(with_places(1, tried), Step::Fault(36));
    }
    for target in [Int(1), Reg(RECORD)] {
        let tried = instruction(FORK, 0, RECORD, target);
        assert_eq!(with_places(1, tried), Step::Fault(34));
    }
    let tried = instruction(FORK, 0, RECORD, Reg(LABEL));
    assert_eq!(with_places(1, tried), Step::Fault(37));
    let expected = Step::Fork {
        record: record(TARGET, 0),
        target: PLAIN,
    };
    assert_eq!(with_places(2, tried), expected);
}

#[test]
fn join_takes_a_record_that_fits() {
    for v in [Int(0), Lab(TARGET), Reg(LABEL), Reg(DEEPER_RECORD)] {
        assert_eq!(fault_at(0, instruction(JOIN, 0, 0, v)), 36);
        assert_eq!(fault_at(1, instruction(JOIN, 0, 0, v)), 36);
    }
    let other = instruction(JOIN, 0, 0, Reg(OTHER_RECORD));
    assert_eq!(fault_at(1, other), 36);
    // No fork was opened beyond its depth, so it fits.
    let mut at_depth_0 = task(0);
    assert_eq!(issue(&mut at_depth_0, other), Step::Onward);
    assert_eq!(at_depth_0.pc, first_of(OTHER_TARGET));
    let mut deeper = task(3);
    let tried = instruction(JOIN, 0, 0, Reg(RECORD));
    assert_eq!(issue(&mut deeper, tried), Step::Wait);
}

#[test]
fn a_record_fits_when_all_forks_beyond_its_depth_belong_to_it() {
    let mut task = Task::new(&[0; 16], 8);
    let outer = record(TARGET, 0);
    let inner = record(OTHER_TARGET, 1);
    assert!(task.fits(outer) && !task.fits(inner));
    task.open_fork(outer);
    assert!(task.fits(outer) && task.fits(inner));
    assert!(!task.fits(record(OTHER_TARGET, 0)));
    task.open_fork(inner);
    assert!(!task.fits(outer) && task.fits(inner));
    // The same continuation at another depth is another record.
    assert!(!task.fits(record(TARGET, 1)) && !task.fits(record(OTHER_TARGET, 0)));
    task.open_fork(inner);
    assert!(!task.fits(outer) && task.fits(inner));
    assert!(task.fits(record(TARGET, 3)) && !task.fits(record(TARGET, 4)));
    // No order leads here, but the rule speaks of every fork, not of the innermost.
    task.open_fork(outer);
    assert!(!task.fits(outer) && !task.fits(inner));
    assert_eq!(task.close_fork(), outer);
    assert_eq!(task.close_fork(), inner);
    assert_eq!(task.close_fork(), inner);
    assert!(task.fits(outer));
}

/// A task with so many integers on its stack, the last of them 0.
fn stacked(depth: usize, height: usize) -> Task {
    let mut task = task(depth);
    for left in (0..height).rev() {
        assert_eq!(task.stack.push(Value::Int(left as i64)), Ok(()));
    }
    task
}

#[test]
fn push_takes_any_value_and_pop_gives_it_back() {
    for (v, value) in [
        (Int(i64::MIN), Value::Int(i64::MIN)),
        (Lab(READY), Value::Label(READY)),
        (Reg(LABEL), Value::Label(PLAIN)),
        (Reg(DEEPER_RECORD), Value::Record(record(TARGET, 3))),
    ] {
        let before = stacked(2, 3);
        let mut task = before.clone();
        assert_eq!(issue(&mut task, push(v)), Step::Onward);
        assert_eq!((task.pc, task.counter, task.span), (1, 1, 1));
        assert_eq!(task.stack.values().last(), Some(&value));
        assert_eq!(task.registers, before.registers);
        task.pc = 0;
        assert_eq!(issue(&mut task, pop(9)), Step::Onward);
        assert_eq!((task.pc, task.counter, task.span), (1, 2, 2));
        assert_eq!((task.registers[9], &task.stack), (value, &before.stack));
    }
}

#[test]
fn a_stack_holds_32_values() {
    for depth in 0..=6 {
        for height in 0..=STACK {
            let mut task = stacked(depth, height);
            let expected = if height == STACK { 42 } else { 0 };
            assert_eq!(fault_of(issue(&mut task, push(Int(5)))), expected);
            let after = if height == STACK { 0 } else { height + 1 };
            assert_eq!(task.stack.height(), after);

            let mut task = stacked(depth, height);
            let expected = if height == 0 { 43 } else { 0 };
            assert_eq!(fault_of(issue(&mut task, pop(3))), expected);
            assert_eq!(task.stack.height(), height.saturating_sub(1));
            assert_eq!(task.registers[3], Value::Int(0));
        }
    }
}

#[test]
fn halt_in_a_side_is_a_fault() {
    assert_eq!(issue(&mut task(0), HALT), Step::Halt);
    for depth in 1..=6 {
        assert_eq!(fault_at(depth, HALT), 38);
    }
}

/// Where entering the promotion-ready block by jump, taken if-jump and join alike leads, and the
/// counter after it; `counter` has the entering instruction in it. No jralloc makes the join's
/// record, since the block is no join target, but the rule speaks of joins too.
fn entered(counter: u32, interval: u16, places: u8) -> (u16, u32) {
    const READY_RECORD: u8 = 1;
    let ways = [
        instruction(JUMP, 0, 0, Lab(READY)),
        instruction(IF_JUMP, 0, 0, Lab(READY)),
        instruction(JOIN, 0, 0, Reg(READY_RECORD)),
    ];
    let [jumped, branched, joined] = ways.map(|way| {
        let mut task = task(0);
        task.registers[usize::from(READY_RECORD)] = Value::Record(record(READY, 0));
        task.counter = counter - 1;
        task.places = places;
        assert_eq!(issue_with(&mut task, way, interval), Step::Onward);
        (task.pc, task.counter)
    });
    assert_eq!((branched, joined), (jumped, jumped));
    jumped
}

#[test]
fn promotion_when_the_counter_is_at_least_the_interval() {
    let (block, handler) = (first_of(READY), first_of(HANDLER));
    for interval in [8, 9, 1_000, 65_535] {
        let beat = u32::from(interval);
        for places in [2, 4, 64] {
            assert_eq!(entered(beat - 1, interval, places), (block, beat - 1));
            assert_eq!(entered(beat, interval, places), (handler, 0));
            assert_eq!(entered(beat + 1, interval, places), (handler, 0));
        }
        assert_eq!(entered(beat, interval, 1), (block, beat));
    }
    assert_eq!(entered(100_001, 8, 64), (handler, 0));
    assert_eq!(entered(101, 8, 1), (block, 101));
    assert_eq!(entered(101, 0, 2), (block, 101));
}

#[test]
fn blocks_that_are_not_promotion_ready_are_entered() {
    for target in [0, PLAIN, HANDLER, TARGET] {
        let mut task = task(0);
        task.counter = 50;
        issue_with(&mut task, instruction(JUMP, 0, 0, Lab(target)), 8);
        assert_eq!((task.pc, task.counter), (first_of(target), 51));
    }
}

#[test]
fn every_instruction_counts_and_a_fault_leaves_zeros() {
    let mut moved = task(2);
    issue(&mut moved, instruction(MOVE, 0, 0, Int(1)));
    assert_eq!((moved.counter, moved.span), (1, 1));

    let mut faulted = stacked(2, 4);
    faulted.counter = 5;
    faulted.span = 9;
    issue(&mut faulted, instruction(DIVIDE, 0, 0, Int(0)));
    assert_eq!((faulted.counter, faulted.span), (6, 10));
    assert_eq!(faulted.registers, [Value::Int(0); 16]);
    assert_eq!(faulted.stack.height(), 0);
    assert_eq!((faulted.depth(), faulted.places), (2, 8));
}
