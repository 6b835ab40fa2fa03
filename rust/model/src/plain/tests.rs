//! The limit, and F.

use super::*;
use crate::sample::{calls, countdown, f, pop, push, stacked, Operand};
use crate::task::Value;

fn job(program: Program, places: u8, r0: i64) -> Job {
    let mut registers = [0; 16];
    registers[0] = r0;
    Job {
        program,
        places,
        interval: 0,
        registers,
        words: Vec::new(),
    }
}

#[test]
fn f_with_two_places() {
    let evaluation = evaluate(&job(f(), 2, 4), 9).unwrap();
    assert_eq!(evaluation.end, End::Halt);
    assert_eq!((evaluation.work, evaluation.span), (9, 7));
    assert_eq!(evaluation.registers[0], Value::Int(12));
    assert_eq!(evaluation.registers[2], Value::Int(7));
}

#[test]
fn the_limit_counts_the_instructions_of_both_sides() {
    for limit in 0..9 {
        assert_eq!(evaluate(&job(f(), 64, 4), limit), None);
    }
    assert!(evaluate(&job(f(), 64, 4), 9).is_some());
}

#[test]
fn many_instructions_take_no_deep_recursion() {
    let evaluation = evaluate(&job(countdown(), 1, 1_000_000), u32::MAX).unwrap();
    assert_eq!(evaluation.work, 3_000_002);
    assert_eq!(evaluate(&job(countdown(), 1, -1), 1_000_000), None);
}

#[test]
fn calls_and_their_returns() {
    let evaluation = evaluate(&job(calls(), 1, 4), 11).unwrap();
    assert_eq!(evaluation.end, End::Halt);
    assert_eq!((evaluation.work, evaluation.span), (11, 11));
    assert_eq!(evaluation.registers[0], Value::Int(14));
    assert_eq!(evaluation.registers[1], Value::Label(3));
}

#[test]
fn stacks_across_a_fork() {
    let dropped = job(stacked(&[push(Operand::Int(7))]), 2, 0);
    let evaluation = evaluate(&dropped, 100).unwrap();
    assert_eq!((evaluation.end, evaluation.work), (End::Halt, 11));
    assert_eq!(evaluation.registers[3..5], [20, 10].map(Value::Int));
    let empty = job(stacked(&[pop(5)]), 2, 0);
    let evaluation = evaluate(&empty, 100).unwrap();
    assert_eq!((evaluation.end, evaluation.work), (End::Fault(43), 6));
    // The child's 33rd, counted from its own start.
    let full = job(stacked(&[push(Operand::Int(7)); 33]), 2, 0);
    let evaluation = evaluate(&full, 100).unwrap();
    assert_eq!((evaluation.end, evaluation.work), (End::Fault(42), 38));
    let high = job(stacked(&[push(Operand::Int(7)); 32]), 2, 0);
    assert_eq!(evaluate(&high, 100).unwrap().end, End::Halt);
}
