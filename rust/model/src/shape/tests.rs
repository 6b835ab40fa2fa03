//! States that orders reach, and damaged ones.

use super::*;
use crate::sample::{
    calls, countdown, f, forks, pop, program, push, stacked, Operand, HALT, PLAIN,
};
use crate::stack::Stack;
use crate::task::Record;
use crate::{VERSION_1, VERSION_2, WORK_LIMIT};

const PLACES: [u64; 7] = [1, 2, 4, 8, 16, 32, 64];

fn start(program: &Program, places: u64) -> Machine {
    Machine::start(program, places, 0, &[3; 16], &[]).unwrap()
}

/// F at P 4 after these picks.
fn f_after(order: &[usize]) -> Machine {
    let mut machine = start(&f(), 4);
    for &slot in order {
        assert_eq!(machine.pick(&f(), &[], slot), Ok(()));
    }
    machine
}

/// F at P 4 with two running sides, in slots 0 and 2.
fn forked() -> Machine {
    f_after(&[0, 0])
}

/// The parent's side waits.
fn waiting() -> Machine {
    f_after(&[0, 0, 0, 0])
}

/// One block of one instruction.
fn short() -> Program {
    program(&[(PLAIN, &[HALT])])
}

fn record(continuation: u8) -> Record {
    Record {
        continuation,
        depth: 0,
    }
}

fn assert_damaged(mut machine: Machine, damage: impl FnOnce(&mut Machine)) {
    assert!(meets(&machine, &f()));
    damage(&mut machine);
    assert!(!meets(&machine, &f()), "{:?}", machine);
    let before = machine.clone();
    assert_eq!(machine.pick(&f(), &[], 0), Err(20));
    assert_eq!(machine.run(&f(), &[], 1), Err(20));
    assert_eq!(machine, before);
}

/// A number below `bound`, by a linear congruence.
fn random(state: &mut u64, bound: usize) -> usize {
    *state = state
        .wrapping_mul(6_364_136_223_846_793_005)
        .wrapping_add(1_442_695_040_888_963_407);
    (*state >> 33) as usize % bound
}

#[test]
fn every_state_of_random_orders_meets_it() {
    let mut state = 1;
    let stacks = [
        calls(),
        stacked(&[push(Operand::Int(7))]),
        stacked(&[pop(2)]),
    ];
    for program in [f(), forks(), countdown()].into_iter().chain(stacks) {
        for places in PLACES {
            for _ in 0..20 {
                let mut machine = start(&program, places);
                assert!(meets(&machine, &program));
                while machine.end().is_none() {
                    let slot = random(&mut state, machine.places() + 1);
                    let answer = machine.pick(&program, &[], slot);
                    assert!(matches!(answer, Ok(()) | Err(21 | 23)), "{:?}", answer);
                    assert!(meets(&machine, &program), "{:?}", machine);
                }
            }
        }
    }
}

#[test]
fn places_interval_and_running_tasks() {
    assert_damaged(forked(), |machine| machine.interval = 1);
    assert_damaged(forked(), |machine| machine.interval = 7);
    assert_damaged(forked(), |machine| machine.slots.truncate(3));
    assert_damaged(forked(), |machine| machine.slots.clear());
    assert_damaged(forked(), |machine| machine.running = 0b1);
    assert_damaged(forked(), |machine| machine.running = 0b111);
    // 128 slots with one task of as many places.
    let mut machine = start(&f(), 64);
    machine.slots.resize(128, Slot::VACANT);
    machine.slots[0].task.places = 128;
    assert!(!meets(&machine, &f()));
}

#[test]
fn tasks_tile_the_slots() {
    assert_damaged(forked(), |machine| machine.slots[0].task.places = 4);
    assert_damaged(forked(), |machine| machine.slots[0].task.places = 1);
    assert_damaged(forked(), |machine| machine.slots[0].task.places = 3);
    assert_damaged(forked(), |machine| machine.slots[2].task.places = 0);
    assert_damaged(forked(), |machine| machine.slots.swap(2, 3));
    assert_damaged(forked(), |machine| {
        machine.slots[2] = Slot::VACANT;
        machine.running = 0b1;
    });
    assert_damaged(forked(), |machine| {
        machine.slots[1] = machine.slots[0].clone();
        machine.running = 0b111;
    });
    assert_damaged(start(&f(), 4), |machine| {
        machine.slots[0] = Slot::VACANT;
        machine.running = 0;
    });
}

#[test]
fn vacant_slots_and_closed_forks_hold_nothing() {
    assert_damaged(forked(), |machine| machine.slots[3].task.span = 1);
    assert_damaged(forked(), |machine| machine.slots[1].task.places = 1);
    assert_damaged(forked(), |machine| {
        machine.slots[1].task.registers[15] = Value::Label(0);
    });
    assert_damaged(forked(), |machine| {
        machine.slots[1].task.forks[0] = record(2);
    });
    assert_damaged(forked(), |machine| {
        machine.slots[0].task.forks[5] = record(2);
    });
    assert_damaged(forked(), |machine| machine.slots[0].task.depth = 7);
    assert_damaged(forked(), |machine| machine.slots[0].task.depth = 255);
}

#[test]
fn a_side_has_its_places_by_its_depth() {
    assert_damaged(forked(), |machine| {
        machine.slots[0].task.close_fork();
    });
    assert_damaged(forked(), |machine| {
        machine.slots[2].task.open_fork(record(2))
    });
    assert_damaged(start(&f(), 4), |machine| {
        machine.slots[0].task.open_fork(record(2))
    });
}

#[test]
fn no_two_sides_of_one_fork_have_both_ended() {
    assert_damaged(waiting(), |machine| {
        machine.slots[2] = machine.slots[0].clone();
        machine.running = 0;
    });
    // A part of the other side may have.
    let program = forks();
    let mut machine = start(&program, 4);
    for slot in [0, 0, 0, 2, 1] {
        assert_eq!(machine.pick(&program, &[], slot), Ok(()));
    }
    let ended: Vec<_> = machine.slots.iter().map(Slot::has_ended_side).collect();
    assert_eq!(ended, [false, true, true, false]);
    assert!(meets(&machine, &program));
}

#[test]
fn statuses() {
    let waits = |machine: &mut Machine| {
        machine.slots[0].status = Status::Waiting;
        machine.running = 0;
    };
    assert_damaged(start(&f(), 4), waits);
    assert_damaged(waiting(), |machine| {
        machine.slots[0].status = Status::Halted
    });
    assert_damaged(waiting(), |machine| machine.slots[0].task.pc = 1);
    assert_damaged(waiting(), |machine| machine.slots[0].task.counter = 1);

    let faulted = |number| {
        let mut machine = waiting();
        machine.slots[0].status = Status::Faulted(number);
        machine.slots[0].task.registers = ZEROS;
        machine
    };
    for number in 0..=u8::MAX {
        let allowed = (31..=38).contains(&number);
        assert_eq!(meets(&faulted(number), &f()), allowed, "{}", number);
        let allowed = allowed || [42, 43].contains(&number);
        assert_eq!(meets(&faulted(number), &f_second()), allowed, "{}", number);
    }
    assert_damaged(faulted(33), |machine| {
        machine.slots[0].task.registers[15] = Value::Int(1);
    });
    assert_damaged(faulted(33), |machine| {
        machine.slots[0].task.stack = Stack::of(vec![Value::Int(0)]);
    });
}

#[test]
fn counts_are_at_most_the_work() {
    assert_damaged(forked(), |machine| machine.slots[2].task.span = 3);
    assert_damaged(forked(), |machine| machine.slots[2].task.counter = 3);
    assert_damaged(forked(), |machine| machine.work = 1);
    let mut machine = forked();
    machine.work = WORK_LIMIT;
    machine.slots[2].task.counter = WORK_LIMIT;
    assert!(meets(&machine, &f()));
}

#[test]
fn what_tasks_name_is_in_the_program() {
    assert_damaged(forked(), |machine| machine.slots[2].task.pc = 9);
    for label in [0, 1, 3, 4, 255] {
        assert_damaged(forked(), |machine| {
            let task = &mut machine.slots[2].task;
            task.close_fork();
            task.open_fork(record(label));
        });
        assert_damaged(forked(), |machine| {
            machine.slots[2].task.registers[15] = Value::Record(record(label));
        });
    }
    for label in [4, 255] {
        assert_damaged(forked(), |machine| {
            machine.slots[2].task.registers[0] = Value::Label(label);
        });
    }
    // A record may be deeper than any task, and a label may be any block's.
    let mut machine = forked();
    machine.slots[2].task.registers[0] = Value::Label(3);
    machine.slots[2].task.registers[1] = Value::Record(Record {
        continuation: 2,
        depth: 255,
    });
    assert!(meets(&machine, &f()));
}

/// F of version 2.
fn f_second() -> Program {
    Program {
        version: VERSION_2,
        ..f()
    }
}

/// F's two sides with these values on the child's stack.
fn with_stack(values: Vec<Value>) -> Machine {
    let mut machine = forked();
    machine.slots[2].task.stack = Stack::of(values);
    machine
}

#[test]
fn stacks() {
    let values = [
        Value::Int(i64::MIN),
        Value::Label(3),
        Value::Record(Record {
            continuation: 2,
            depth: u32::MAX,
        }),
    ];
    for height in 0..40 {
        let values: Vec<Value> = values.into_iter().cycle().take(height).collect();
        let machine = with_stack(values);
        // Whether there may be something on it is not for the version to say.
        for version in [VERSION_1, VERSION_2] {
            let program = Program { version, ..f() };
            assert_eq!(meets(&machine, &program), height <= 32);
        }
    }
    for wrong in [
        Value::Label(4),
        Value::Record(record(1)),
        Value::Record(record(4)),
    ] {
        for at in [0, 7, 31] {
            assert_damaged(with_stack(vec![Value::Int(0); 32]), |machine| {
                let mut values = vec![Value::Int(0); 32];
                values[at] = wrong;
                machine.slots[2].task.stack = Stack::of(values);
            });
        }
    }
    for slot in [1, 3] {
        assert_damaged(forked(), |machine| {
            machine.slots[slot].task.stack = Stack::of(vec![Value::Int(0)]);
        });
    }
}

#[test]
fn another_program_than_the_jobs_own() {
    // Block 2 is no join target.
    let mut unmarked = f();
    unmarked.blocks[2] = crate::Block {
        first: unmarked.blocks[2].first,
        ..PLAIN
    };
    for other in [unmarked, short(), countdown()] {
        assert_eq!(other.check(), Ok(()));
        assert!(!meets(&forked(), &other));
        assert_eq!(forked().pick(&other, &[], 0), Err(20));
        // A fresh start names nothing of its program.
        assert!(meets(&start(&f(), 4), &other));
    }
    // The task's next instruction is the fourth.
    let mut machine = Machine::start(&countdown(), 1, 0, &[0; 16], &[]).unwrap();
    assert_eq!(machine.pick(&countdown(), &[], 0), Ok(()));
    assert_eq!(machine.slots[0].task.pc, 3);
    assert!(meets(&machine, &f()));
    assert!(!meets(&machine, &short()));
}
