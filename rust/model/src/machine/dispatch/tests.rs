//! Rounds, what they take, where they stop, and the dispatcher's questions.

use super::*;
use crate::machine::End;
use crate::sample::{countdown, f, forks};

const ZERO: [i64; 16] = [0; 16];

fn start(program: &Program, places: u64) -> Machine {
    Machine::start(program, places, 0, &ZERO, &[]).unwrap()
}

fn ended(picks: u64, rounds: u64) -> Result<Dispatched, u8> {
    Ok(Dispatched {
        answer: Answer::Ended,
        picks,
        rounds,
    })
}

fn spent(picks: u64, rounds: u64) -> Result<Dispatched, u8> {
    Ok(Dispatched {
        answer: Answer::Spent,
        picks,
        rounds,
    })
}

/// The spans of the tasks in all slots, which tell who was picked.
fn spans(machine: &Machine) -> Vec<u32> {
    machine.slots().iter().map(|slot| slot.task.span).collect()
}

#[test]
fn slots_of_bits() {
    assert_eq!(slots(0).count(), 0);
    assert_eq!(slots(0b1011).collect::<Vec<_>>(), [0, 1, 3]);
    assert_eq!(slots(1 << 63 | 1).collect::<Vec<_>>(), [0, 63]);
    assert_eq!(slots(u64::MAX).collect::<Vec<_>>(), Vec::from_iter(0..64));
}

#[test]
fn f_takes_7_rounds_with_two_lanes_and_9_with_one() {
    for places in [2, 4, 8, 16, 32, 64] {
        for lanes in 1..=MAX_LANES {
            let mut machine = start(&f(), places);
            let rounds = if lanes == 1 { 9 } else { 7 };
            let dispatched = machine.dispatch(&f(), &[], lanes, u64::MAX);
            assert_eq!(dispatched, ended(9, rounds));
            assert_eq!(machine.end(), Some(End::Halt));
            assert_eq!((machine.work(), machine.last_task().span), (9, 7));
        }
    }
}

#[test]
fn one_lane_takes_a_round_for_each_pick() {
    for program in [f(), forks(), countdown()] {
        for places in [1, 2, 4, 8, 16, 32, 64] {
            let mut machine = start(&program, places);
            let dispatched = machine.dispatch(&program, &[], 1, u64::MAX).unwrap();
            assert_eq!(dispatched.answer, Answer::Ended);
            assert_eq!(dispatched.picks, machine.work().into());
            assert_eq!(dispatched.rounds, machine.work().into());
        }
    }
}

#[test]
fn a_task_made_by_a_fork_waits_for_the_next_round() {
    let mut machine = start(&f(), 2);
    // jralloc and the fork: the child sits further on, and there are lanes for it.
    assert_eq!(machine.dispatch(&f(), &[], 8, 2), spent(2, 2));
    assert_eq!(machine.slots()[0].task.pc, 2);
    assert_eq!(machine.slots()[1].task.pc, 4);
    assert_eq!(machine.dispatch(&f(), &[], 8, 1), spent(2, 1));
    assert_eq!(machine.slots()[0].task.pc, 3);
    assert_eq!(machine.slots()[1].task.pc, 5);
}

#[test]
fn a_task_made_by_a_join_waits_for_the_next_round() {
    let mut machine = start(&f(), 2);
    // In the fourth round both sides end, the child's second.
    assert_eq!(machine.dispatch(&f(), &[], 8, 4), spent(6, 4));
    let joined = machine.last_task();
    assert_eq!((joined.pc, joined.counter, joined.depth()), (7, 0, 0));

    // The child's has ended before the parent's.
    let mut machine = start(&f(), 2);
    for slot in [0, 0, 1, 1, 0] {
        machine.pick(&f(), &[], slot).unwrap();
    }
    assert_eq!(machine.dispatch(&f(), &[], 8, 1), spent(1, 1));
    assert_eq!(machine.last_task().pc, 7);
}

#[test]
fn the_first_running_tasks_have_the_lanes() {
    let program = forks();
    let mut machine = start(&program, 8);
    for _ in 0..4 {
        machine.pick(&program, &[], 0).unwrap();
    }
    // All of slots 0, 1, 2 and 4 run; those of 1, 2 and 4 are about to join, and the one of 0 to
    // fault.
    assert_eq!(machine.running, 0b1_0111);
    assert_eq!(spans(&machine), [4, 4, 3, 0, 2, 0, 0, 0]);
    let after = |lanes| {
        let mut machine = machine.clone();
        machine.dispatch(&program, &[], lanes, 1).unwrap();
        machine
    };
    assert_eq!(after(1).running, 0b1_0110);
    // The sides of the innermost fork end: their task is faulted, and waits.
    assert_eq!(after(2).running, 0b1_0100);
    assert_eq!(after(3).running, 0b1_0000);
    for lanes in 4..=8 {
        assert_eq!(after(lanes).end(), Some(End::Fault(37)));
        assert_eq!(after(lanes).work(), 8);
    }
    // Passed over: a waiting task takes no lane.
    let mut machine = after(1);
    machine.dispatch(&program, &[], 2, 1).unwrap();
    assert_eq!(machine.running, 0b1_0000);
}

#[test]
fn lanes_without_a_task_are_idle() {
    let mut registers = ZERO;
    registers[0] = 3;
    for lanes in 1..=8 {
        let mut machine = Machine::start(&countdown(), 64, 0, &registers, &[]).unwrap();
        let dispatched = machine.dispatch(&countdown(), &[], lanes, 100);
        assert_eq!(dispatched, ended(11, 11));
    }
}

#[test]
fn spent_after_exactly_the_budgets_rounds() {
    for budget in 0..7 {
        let mut machine = start(&f(), 2);
        let dispatched = machine.dispatch(&f(), &[], 2, budget).unwrap();
        let expected = (Answer::Spent, budget);
        assert_eq!((dispatched.answer, dispatched.rounds), expected);
        assert_eq!(machine.end(), None);
        let rest = machine.dispatch(&f(), &[], 2, u64::MAX);
        assert_eq!(rest, ended(9 - dispatched.picks, 7 - budget));
    }
    // On the last round, and before it.
    for budget in [7, 8, u64::MAX] {
        let dispatched = start(&f(), 2).dispatch(&f(), &[], 2, budget);
        assert_eq!(dispatched, ended(9, 7));
    }
}

#[test]
fn a_budget_of_0_is_spent_at_once() {
    for lanes in 1..=8 {
        let mut machine = start(&f(), 2);
        assert_eq!(machine.dispatch(&f(), &[], lanes, 0), spent(0, 0));
        assert_eq!(machine, start(&f(), 2));
    }
}

#[test]
fn a_job_that_had_ended_takes_no_round() {
    let mut machine = start(&f(), 2);
    machine.run(&f(), &[], 9).unwrap();
    machine.work = WORK_LIMIT;
    let before = machine.clone();
    for budget in [0, 1, u64::MAX] {
        assert_eq!(machine.dispatch(&f(), &[], 2, budget), ended(0, 0));
    }
    assert_eq!(machine, before);
}

#[test]
fn a_round_that_the_works_limit_cuts_short_is_counted() {
    let with_work_left = |left, budget| {
        let mut machine = start(&f(), 2);
        machine.work = WORK_LIMIT - left;
        let dispatched = machine.dispatch(&f(), &[], 2, budget);
        assert_eq!(machine.work == WORK_LIMIT, left <= 9);
        dispatched
    };
    assert_eq!(with_work_left(0, 100), spent(0, 0));
    assert_eq!(with_work_left(0, 0), spent(0, 0));
    assert_eq!(with_work_left(2, 100), spent(2, 2));
    // The third round and the fourth have two picks.
    assert_eq!(with_work_left(3, 100), spent(3, 3));
    assert_eq!(with_work_left(3, 3), spent(3, 3));
    assert_eq!(with_work_left(4, 100), spent(4, 3));
    assert_eq!(with_work_left(5, 100), spent(5, 4));
    assert_eq!(with_work_left(6, 100), spent(6, 4));
    assert_eq!(with_work_left(8, 100), spent(8, 6));
    assert_eq!(with_work_left(9, 100), ended(9, 7));
    assert_eq!(with_work_left(10, 100), ended(9, 7));
}

#[test]
fn lanes_are_asked_for_after_14_and_before_20() {
    let good = start(&f(), 2);
    let mut damaged = good.clone();
    damaged.interval = 7;
    let mut bad = f();
    bad.blocks.clear();
    let many = [0; 4097];
    for lanes in [0, 9, 10, 1 << 32 | 1, u64::MAX] {
        for machine in [&mut good.clone(), &mut damaged.clone()] {
            let before = machine.clone();
            assert_eq!(machine.dispatch(&bad, &many, lanes, 1), Err(4));
            assert_eq!(machine.dispatch(&f(), &many, lanes, 1), Err(14));
            assert_eq!(machine.dispatch(&f(), &[], lanes, 1), Err(41));
            assert_eq!(*machine, before);
        }
    }
    for lanes in 1..=8 {
        assert_eq!(damaged.dispatch(&f(), &many, lanes, 1), Err(14));
        assert_eq!(damaged.dispatch(&f(), &[], lanes, 1), Err(20));
        assert_eq!(good.clone().dispatch(&f(), &[], lanes, 1), spent(1, 1));
    }
}
