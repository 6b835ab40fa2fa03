//! States written and read, and bytes that stand for none.

use super::*;
use crate::sample::{f, forks, pop, push, stacked, Operand};
use crate::shape;
use crate::{Program, VERSION_2};

const SLOT_0: usize = JOB_NUMBERS;
const SLOT_2: usize = JOB_NUMBERS + 2 * SLOT_NUMBERS;

fn after(program: &Program, places: u64, order: &[usize]) -> Machine {
    let mut machine = Machine::start(program, places, 8, &[-3; 16], &[]).unwrap();
    for &slot in order {
        assert_eq!(machine.pick(program, &[], slot), Ok(()));
    }
    machine
}

/// F at P 4 with two running sides, in slots 0 and 2.
fn forked() -> Vec<u8> {
    bytes(&after(&f(), 4, &[0, 0]))
}

fn with(mut bytes: Vec<u8>, at: usize, number: u64) -> Vec<u8> {
    numbers::write([number], &mut bytes[8 * at..]);
    bytes
}

/// Whether question 20 is answered with yes for F.
fn is_taken(bytes: &[u8]) -> bool {
    read(bytes).map_or(false, |machine| shape::meets(&machine, &f()))
}

fn assert_refused(at: usize, number: u64) {
    let damaged = with(forked(), at, number);
    assert!(!is_taken(&damaged), "number {} set to {}", at, number);
}

#[test]
fn numbers_and_their_places() {
    let bytes = forked();
    assert_eq!((bytes.len(), NUMBERS, SLOT_NUMBERS), (83_992, 10_499, 164));
    assert_eq!((REGISTERS_AT, HEIGHT_AT, STACK_AT), (19, 67, 68));
    let numbers = |from: usize, count: usize| -> Vec<u64> {
        let numbers = from..from + count;
        numbers.map(|at| number_at(&bytes, at)).collect()
    };
    assert_eq!(numbers(0, 3), [4, 8, 2]);
    assert_eq!(numbers(3, 7), [1, 0, 2, 2, 2, 2, 1]);
    assert_eq!(numbers(10, 4), [2, 0, 0, 0]);
    assert_eq!(numbers(22, 6), [0, -3i64 as u64, 0, 2, 2, 0]);
    assert_eq!(numbers(SLOT_2, 7), [1, 0, 2, 4, 0, 2, 1]);
    assert!(numbers(SLOT_0 + 67, 97 + 164).iter().all(|&n| n == 0));
}

#[test]
fn what_was_written_is_read_back() {
    for places in [1, 2, 4, 8, 16, 32, 64] {
        let stacks = [stacked(&[push(Operand::Lab(2))]), stacked(&[pop(2)])];
        for program in [f(), forks()].into_iter().chain(stacks) {
            let mut machine = after(&program, places, &[]);
            loop {
                assert_eq!(read(&bytes(&machine)), Some(machine.clone()));
                let slots = 0..machine.places();
                if slots
                    .rev()
                    .all(|slot| machine.pick(&program, &[], slot).is_err())
                {
                    break;
                }
            }
            assert!(machine.end().is_some());
        }
    }
}

/// Each number larger by what is lost where it is cut to fewer bits, in every slot.
#[test]
fn numbers_are_never_cut_to_size() {
    for at in 0..NUMBERS {
        let number = number_at(&forked(), at);
        let at_slot = at.checked_sub(JOB_NUMBERS).map(|at| at % SLOT_NUMBERS);
        let is_integer = at_slot.map_or(false, |at_slot| {
            let kind = at - at_slot.saturating_sub(REGISTERS_AT) % 3;
            (REGISTERS_AT..HEIGHT_AT).contains(&at_slot)
                && (at_slot - REGISTERS_AT) % 3 == 1
                && number_at(&forked(), kind) == 0
                && [SLOT_0, SLOT_2].contains(&(at - at_slot))
        });
        for bit in [32, 33, 63] {
            let damaged = with(forked(), at, number | 1 << bit);
            assert_eq!(is_taken(&damaged), is_integer, "number {}", at);
        }
    }
}

#[test]
fn statuses_and_fault_numbers() {
    for status in [5, 6, 9, 255, 256, 257, u64::MAX] {
        assert_refused(SLOT_0, status);
        assert_refused(SLOT_0 + SLOT_NUMBERS, status);
    }
    // Of a task that has not faulted, even where 33 would be a fault's number.
    for number in [1, 31, 33, 256] {
        assert_refused(SLOT_0 + 1, number);
        assert_refused(SLOT_0 + SLOT_NUMBERS + 1, number);
    }
    let waiting = bytes(&after(&f(), 4, &[0, 0, 0, 0]));
    let mut faulted = with(waiting, SLOT_0, 4);
    faulted[8 * (SLOT_0 + REGISTERS_AT)..8 * (SLOT_0 + HEIGHT_AT)].fill(0);
    assert!(is_taken(&with(faulted.clone(), SLOT_0 + 1, 33)));
    for number in [0, 30, 39, 41, 42, 43, 44, 255, 256 + 33, (1 << 32) + 33] {
        assert!(!is_taken(&with(faulted.clone(), SLOT_0 + 1, number)));
    }
    // Only a program of version 2 comes to these.
    let second = Program {
        version: VERSION_2,
        ..f()
    };
    for (number, taken) in [(41, false), (42, true), (43, true), (44, false)] {
        let machine = read(&with(faulted.clone(), SLOT_0 + 1, number)).unwrap();
        assert_eq!(shape::meets(&machine, &second), taken);
    }
    assert!(!is_taken(&with(
        with(faulted, SLOT_0 + 1, 33),
        SLOT_0 + HEIGHT_AT,
        1
    )));
}

/// Of the child in slot 2.
const HEIGHT: usize = SLOT_2 + HEIGHT_AT;
const ENTRIES: usize = SLOT_2 + STACK_AT;

/// Its stack with an integer, a label and a record, from the lowest on.
fn stacked_machine() -> Machine {
    let mut machine = after(&f(), 4, &[0, 0]);
    let record = Record {
        continuation: 2,
        depth: 9,
    };
    let values = vec![Value::Int(-1), Value::Label(3), Value::Record(record)];
    machine.slots[2].task.stack = Stack::of(values);
    machine
}

#[test]
fn entries_are_written_as_registers_are() {
    let machine = stacked_machine();
    let bytes = bytes(&machine);
    let numbers = (HEIGHT..ENTRIES + 12).map(|at| number_at(&bytes, at));
    let expected = [3, 0, u64::MAX, 0, 1, 3, 0, 2, 2, 9, 0, 0, 0];
    assert_eq!(numbers.collect::<Vec<_>>(), expected);
    assert_eq!(read(&bytes), Some(machine));
    assert!(is_taken(&bytes));
}

#[test]
fn heights() {
    let bytes = bytes(&stacked_machine());
    let with_height = |number| is_taken(&with(bytes.clone(), HEIGHT, number));
    // Heights that leave the record above them, or take in zeros.
    for (number, taken) in [(2, false), (0, false), (4, true), (32, true), (33, false)] {
        assert_eq!(with_height(number), taken);
    }
    for number in [256 + 3, (1 << 32) + 3, (1 << 61) + 3, u64::MAX] {
        assert!(!with_height(number));
    }
}

#[test]
fn entries() {
    let bytes = bytes(&stacked_machine());
    let is_taken_with = |at, number| is_taken(&with(bytes.clone(), at, number));
    // Kinds, second numbers, labels and continuations as of registers.
    let wrong = [
        (0, 3),
        (2, 1),
        (4, 4),
        (5, 1),
        (7, 1),
        (7, 256 + 2),
        (8, 1 << 32),
    ];
    for (at, number) in wrong {
        assert!(!is_taken_with(ENTRIES + at, number));
    }
    assert!(is_taken_with(ENTRIES + 8, u32::MAX.into()));
    // Every entry from the height on is 0, in a vacant slot each of them.
    for at in 9..96 {
        assert!(!is_taken_with(ENTRIES + at, 1));
    }
    for at in 0..97 {
        assert!(!is_taken_with(HEIGHT + SLOT_NUMBERS + at, 1));
        assert!(!is_taken_with(HEIGHT - SLOT_NUMBERS + at, 1));
    }
}

#[test]
fn kinds_and_second_numbers() {
    let r0 = SLOT_0 + REGISTERS_AT;
    for kind in [3, 4, 255, 256, 258, u64::MAX] {
        assert_refused(r0, kind);
    }
    // An integer and a label have no second number.
    assert!(is_taken(&with(forked(), r0 + 1, u64::MAX)));
    assert_refused(r0 + 2, 1);
    let label = with(with(forked(), r0, 1), r0 + 1, 3);
    assert!(is_taken(&label));
    assert!(!is_taken(&with(label.clone(), r0 + 2, 1)));
    for number in [4, 255, 256 + 3, (1 << 32) + 3] {
        assert!(!is_taken(&with(label.clone(), r0 + 1, number)));
    }
    // A record's depth is any number of 32 bits, and is kept whole.
    let deep = with(forked(), r0 + 3 + 2, u32::MAX.into());
    assert!(is_taken(&deep));
    assert_eq!(bytes(&read(&deep).unwrap()), deep);
    let fork = with(forked(), SLOT_0 + FORKS_AT + 1, u32::MAX.into());
    assert!(is_taken(&fork));
    assert_eq!(bytes(&read(&fork).unwrap()), fork);
}

#[test]
fn places_of_the_job() {
    for places in (0..4).chain(5..70).chain([128, 256 + 4, (1 << 32) + 4]) {
        assert_refused(0, places);
    }
    // At P 1 a second slot is never looked at, and still vacant.
    let single = bytes(&after(&f(), 1, &[]));
    assert!(is_taken(&single));
    for slot in 1..64 {
        for at in [0, 2, 8, 66, 67, 68, 163] {
            let at = JOB_NUMBERS + slot * SLOT_NUMBERS + at;
            assert!(!is_taken(&with(single.clone(), at, 1)));
        }
    }
}

#[test]
fn one_slot_alone() {
    let machine = stacked_machine();
    let bytes = bytes(&machine);
    assert_eq!((places(&bytes), work(&bytes)), (4, 2));
    assert_eq!(running_slots(&bytes), 0b101);
    for (number, expected) in machine.slots().iter().enumerate() {
        assert_eq!(slot(&bytes, number).as_ref(), Some(expected));
    }
    for at in [SLOT_2, HEIGHT, ENTRIES] {
        let damaged = with(bytes.clone(), at, 50);
        assert_eq!(slot(&damaged, 2), None);
        assert!(is_same_slot(&bytes, &damaged, 0));
        assert!(!is_same_slot(&bytes, &damaged, 2));
    }
}

/// The child waits for its parent. Put back to running it is at the first instruction with the stack
/// that it has left, and the state still meets the shape test.
#[test]
fn an_ended_side_runs_again() {
    let program = stacked(&[push(Operand::Lab(2))]);
    let mut bytes = bytes(&after(&program, 4, &[0, 0, 0, 2, 2]));
    assert_eq!(running_slots(&bytes), 0b001);
    set_running(&mut bytes, 2);
    assert_eq!(running_slots(&bytes), 0b101);
    let task = slot(&bytes, 2).unwrap().task;
    assert_eq!((task.pc, task.stack.values()), (0, &[Value::Label(2)][..]));
    assert!(shape::meets(&read(&bytes).unwrap(), &program));
}
