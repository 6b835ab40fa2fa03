//! The questions of start, pick and run, and where the tasks sit.

use super::*;
use crate::image::Instruction;
use crate::opcode;
use crate::sample::{
    calls, countdown, f, forks, instruction, pop, push, second, stacked, Operand, HALT, PLAIN,
};
use crate::task::{Value, ZEROS};
use crate::STACK;
use Operand::{Int, Lab};

const ZERO: [i64; 16] = [0; 16];

fn start(program: &Program, places: u64) -> Machine {
    Machine::start(program, places, 0, &ZERO, &[]).unwrap()
}

/// What is at slots 0, 1, .. of a machine: the places of each task, 0 where there is none.
fn places(machine: &Machine) -> Vec<u8> {
    let in_slot = |slot: &Slot| match slot.status {
        Status::Vacant => 0,
        _ => slot.task.places,
    };
    machine.slots().iter().map(in_slot).collect()
}

#[test]
fn start_puts_the_programs_questions_and_then_its_own_in_order() {
    let good = f();
    let mut bad = f();
    bad.instructions[8] = bad.instructions[7];
    let refusal = |program, places, interval, registers: &[i64], words: &[i64]| {
        Machine::start(program, places, interval, registers, words).err()
    };
    let many = [0; 4097];
    let no_version = Program {
        version: 3,
        ..bad.clone()
    };
    assert_eq!(refusal(&no_version, 3, 7, &[], &many), Some(3));
    assert_eq!(refusal(&bad, 3, 7, &[], &many), Some(9));
    assert_eq!(refusal(&good, 3, 7, &[], &many), Some(11));
    assert_eq!(refusal(&good, 2, 7, &[], &many), Some(12));
    assert_eq!(refusal(&good, 2, 8, &[], &many), Some(13));
    assert_eq!(refusal(&good, 2, 8, &ZERO, &many), Some(14));
    assert_eq!(refusal(&good, 2, 8, &ZERO, &many[1..]), None);
    assert_eq!(refusal(&good, 2, 8, &ZERO[1..], &[]), Some(13));
    assert_eq!(refusal(&good, 2, 8, &[0; 17], &[]), Some(13));
    for places in 0..=300 {
        let allowed = [1, 2, 4, 8, 16, 32, 64].contains(&places);
        let expected = if allowed { None } else { Some(11) };
        assert_eq!(refusal(&good, places, 0, &ZERO, &[]), expected);
    }
    assert_eq!(refusal(&good, (1 << 32) + 2, 0, &ZERO, &[]), Some(11));
    for interval in 0..=70_000 {
        let allowed = interval == 0 || (8..=65_535).contains(&interval);
        let expected = if allowed { None } else { Some(12) };
        assert_eq!(refusal(&good, 1, interval, &ZERO, &[]), expected);
    }
}

#[test]
fn a_fresh_start_has_one_task_with_all_places() {
    let mut registers = ZERO;
    registers[3] = -9;
    let machine = Machine::start(&f(), 4, 8, &registers, &[]).unwrap();
    assert_eq!(places(&machine), [4, 0, 0, 0]);
    assert_eq!((machine.work(), machine.end()), (0, None));
    let task = machine.last_task();
    assert_eq!(
        (task.pc, task.counter, task.span, task.depth()),
        (0, 0, 0, 0)
    );
    assert_eq!(task.registers, registers.map(Value::Int));
    assert_eq!(task.stack.height(), 0);
}

#[test]
fn pick_puts_its_questions_in_order_and_a_refusal_changes_nothing() {
    let program = f();
    let mut bad = f();
    bad.blocks[3].label = 1;
    let many = [0; 4097];
    let mut machine = start(&program, 2);
    machine.work = WORK_LIMIT;
    let mut before = machine.clone();
    assert_eq!(machine.pick(&bad, &many, 9), Err(7));
    assert_eq!(machine.pick(&program, &many, 9), Err(14));
    let mut damaged = machine.clone();
    damaged.interval = 7;
    assert_eq!(damaged.pick(&program, &many, 2), Err(14));
    assert_eq!(damaged.pick(&program, &[], 2), Err(20));
    assert_eq!(machine.pick(&program, &[], 2), Err(21));
    assert_eq!(machine.pick(&program, &[], usize::MAX), Err(21));
    assert_eq!(machine.pick(&program, &[], 1), Err(23));
    assert_eq!(machine.pick(&program, &[], 0), Err(24));
    assert_eq!(machine, before);

    machine.work = WORK_LIMIT - 1;
    assert_eq!(machine.pick(&program, &[], 0), Ok(()));
    assert_eq!(machine.work(), WORK_LIMIT);

    let mut machine = start(&program, 2);
    assert_eq!(machine.run(&program, &[], 100), Ok((Answer::Ended, 9)));
    machine.work = WORK_LIMIT;
    before = machine.clone();
    assert_eq!(machine.pick(&program, &[], 2), Err(21));
    assert_eq!(machine.pick(&program, &[], 0), Err(22));
    assert_eq!(machine.pick(&program, &[], 1), Err(22));
    assert_eq!(machine, before);
}

#[test]
fn a_waiting_task_cannot_be_picked() {
    let program = f();
    let mut machine = start(&program, 2);
    for _ in 0..4 {
        assert_eq!(machine.pick(&program, &[], 0), Ok(()));
    }
    assert_eq!(machine.slots()[0].status, Status::Waiting);
    assert_eq!(machine.pick(&program, &[], 0), Err(23));
    assert_eq!(machine.end(), None);
    assert_eq!(places(&machine), [1, 1]);
}

#[test]
fn the_pick_that_ends_the_second_side_joins() {
    let program = f();
    for order in [[0, 0, 0, 0, 1, 1], [0, 0, 1, 1, 0, 0]] {
        let mut machine = start(&program, 8);
        for slot in order {
            let slot = slot * 4;
            assert_eq!(machine.pick(&program, &[], slot), Ok(()));
        }
        assert_eq!(places(&machine), [8, 0, 0, 0, 0, 0, 0, 0]);
        let task = machine.last_task();
        assert_eq!(
            (task.pc, task.counter, task.span, task.depth()),
            (7, 0, 4, 0)
        );
        assert_eq!(task.registers[0], Value::Int(1));
        assert_eq!(task.registers[2], Value::Int(7));
    }
}

#[test]
fn children_sit_in_the_first_slot_of_the_upper_half() {
    let program = forks();
    let mut machine = start(&program, 8);
    let mut pick = |slot| {
        assert_eq!(machine.pick(&program, &[], slot), Ok(()));
        places(&machine)
    };
    assert_eq!(pick(0), [8, 0, 0, 0, 0, 0, 0, 0]);
    assert_eq!(pick(0), [4, 0, 0, 0, 4, 0, 0, 0]);
    assert_eq!(pick(0), [2, 0, 2, 0, 4, 0, 0, 0]);
    assert_eq!(pick(0), [1, 1, 2, 0, 4, 0, 0, 0]);
    // No place left: fault 37, which waits and keeps its places.
    assert_eq!(pick(0), [1, 1, 2, 0, 4, 0, 0, 0]);
    assert_eq!(pick(4), [1, 1, 2, 0, 4, 0, 0, 0]);
    assert_eq!(pick(2), [1, 1, 2, 0, 4, 0, 0, 0]);
    // The last side to end closes all three forks.
    assert_eq!(pick(1), [8, 0, 0, 0, 0, 0, 0, 0]);
    assert_eq!(machine.end(), Some(End::Fault(37)));
    assert_eq!((machine.work(), machine.last_task().span), (8, 5));
    assert_eq!(machine.last_task().registers, ZEROS);
}

#[test]
fn a_child_has_the_parents_registers_and_span() {
    let program = forks();
    let mut registers = ZERO;
    registers[9] = 99;
    let mut machine = Machine::start(&program, 4, 8, &registers, &[]).unwrap();
    for _ in 0..2 {
        machine.pick(&program, &[], 0).unwrap();
    }
    let (parent, child) = (&machine.slots()[0].task, &machine.slots()[2].task);
    assert_eq!(parent.registers, child.registers);
    assert_eq!(child.registers[9], Value::Int(99));
    assert_eq!((parent.counter, parent.span, parent.pc), (2, 2, 2));
    assert_eq!((child.counter, child.span, child.pc), (0, 2, 10));
    assert_eq!(parent.forks(), child.forks());
    assert_eq!(parent.depth(), 1);
}

#[test]
fn run_carries_out_exactly_the_budgets_picks() {
    let program = countdown();
    let mut registers = ZERO;
    registers[0] = 3;
    let fresh = Machine::start(&program, 1, 0, &registers, &[]).unwrap();
    // Three rounds of three, the last if-jump, and halt.
    for budget in 0..=10 {
        let mut machine = fresh.clone();
        let ran = machine.run(&program, &[], budget);
        assert_eq!(ran, Ok((Answer::Spent, budget)));
        assert_eq!(u64::from(machine.work()), budget);
        assert_eq!(machine.end(), None);
        let rest = machine.run(&program, &[], u64::MAX);
        assert_eq!(rest, Ok((Answer::Ended, 11 - budget)));
    }
    let mut machine = fresh;
    // A job that ends on the last pick has ended.
    assert_eq!(machine.run(&program, &[], 11), Ok((Answer::Ended, 11)));
    assert_eq!(machine.end(), Some(End::Halt));
    for budget in [0, 1, u64::MAX] {
        assert_eq!(machine.run(&program, &[], budget), Ok((Answer::Ended, 0)));
    }
}

#[test]
fn run_stops_at_the_work_limit() {
    let program = countdown();
    let mut registers = ZERO;
    registers[0] = 3;
    let fresh = Machine::start(&program, 1, 0, &registers, &[]).unwrap();
    let with_work_left = |left| {
        let mut machine = fresh.clone();
        machine.work = WORK_LIMIT - left;
        let ran = machine.run(&program, &[], 1000);
        (ran.unwrap(), WORK_LIMIT - machine.work)
    };
    assert_eq!(with_work_left(0), ((Answer::Spent, 0), 0));
    assert_eq!(with_work_left(10), ((Answer::Spent, 10), 0));
    assert_eq!(with_work_left(11), ((Answer::Ended, 11), 0));
    assert_eq!(with_work_left(12), ((Answer::Ended, 11), 1));
}

#[test]
fn run_puts_the_questions_of_a_pick_up_to_20() {
    let mut machine = start(&f(), 2);
    let mut bad = f();
    bad.blocks.clear();
    assert_eq!(machine.run(&bad, &[0; 4097], 0), Err(4));
    bad.version = 0;
    assert_eq!(machine.run(&bad, &[0; 4097], 0), Err(3));
    assert_eq!(machine.pick(&bad, &[0; 4097], 0), Err(3));
    assert_eq!(machine.dispatch(&bad, &[0; 4097], 9, 0), Err(3));
    assert_eq!(machine.run(&f(), &[0; 4097], 0), Err(14));
    assert_eq!(machine, start(&f(), 2));
    machine.interval = 7;
    assert_eq!(machine.run(&f(), &[0; 4097], 0), Err(14));
    assert_eq!(machine.run(&f(), &[], 0), Err(20));
}

#[test]
fn run_reaches_a_task_that_the_same_pass_has_made() {
    let program = f();
    let mut machine = start(&program, 2);
    // jralloc, and on the second pass the fork: its child is further on.
    machine.run(&program, &[], 2).unwrap();
    assert_eq!(machine.slots()[1].task.pc, 4);
    let mut by_one_run = start(&program, 2);
    by_one_run.run(&program, &[], 3).unwrap();
    assert_eq!(by_one_run.slots()[1].task.pc, 5);
    assert_eq!(by_one_run.slots()[0].task.pc, 2);
    // Another run begins at slot 0 again.
    machine.run(&program, &[], 1).unwrap();
    assert_eq!(machine.slots()[0].task.pc, 3);
    assert_eq!(machine.slots()[1].task.pc, 4);
}

#[test]
fn a_subroutine_goes_back_to_where_it_was_called() {
    let program = calls();
    let mut machine = start(&program, 1);
    assert_eq!(machine.run(&program, &[], 100), Ok((Answer::Ended, 11)));
    assert_eq!(machine.end(), Some(End::Halt));
    let task = machine.last_task();
    assert_eq!(task.registers[..2], [Value::Int(10), Value::Label(3)]);
    assert_eq!(task.stack.height(), 0);
}

/// The values of a slot's stack, all integers.
fn stack(machine: &Machine, slot: usize) -> Vec<Value> {
    machine.slots()[slot].task.stack.values().to_vec()
}

#[test]
fn a_joined_task_has_the_stack_that_the_parents_side_left() {
    let program = stacked(&[push(Int(7)), push(Int(8))]);
    // The parent's side is first, or the child's.
    for order in [[0, 0, 1, 1, 1], [1, 1, 1, 0, 0]] {
        let mut machine = start(&program, 2);
        for slot in [0, 0, 0] {
            assert_eq!(machine.pick(&program, &[], slot), Ok(()));
        }
        assert_eq!(stack(&machine, 0), [Value::Int(10)]);
        assert_eq!(stack(&machine, 1), []);
        for &slot in &order[..4] {
            assert_eq!(machine.pick(&program, &[], slot), Ok(()));
        }
        // A waiting side keeps its stack.
        assert!(machine
            .slots()
            .iter()
            .any(|slot| slot.status == Status::Waiting));
        assert!(machine
            .slots()
            .iter()
            .all(|slot| slot.task.stack.height() > 0));
        assert_eq!(machine.pick(&program, &[], order[4]), Ok(()));
        assert_eq!(stack(&machine, 0), [10, 20].map(Value::Int));
        assert_eq!(machine.slots()[1], Slot::VACANT);
        assert_eq!(machine.run(&program, &[], 9), Ok((Answer::Ended, 4)));
        let task = machine.last_task();
        assert_eq!(task.registers[3..5], [20, 10].map(Value::Int));
    }
}

#[test]
fn a_child_starts_with_an_empty_stack() {
    let program = stacked(&[pop(2)]);
    let mut machine = start(&program, 2);
    for slot in [0, 0, 0, 1] {
        assert_eq!(machine.pick(&program, &[], slot), Ok(()));
    }
    assert_eq!(machine.slots()[1].status, Status::Faulted(43));
    // What is left of the parent's goes with the fault.
    assert_eq!(stack(&machine, 0), [Value::Int(10)]);
    assert_eq!(machine.run(&program, &[], 9), Ok((Answer::Ended, 2)));
    assert_eq!(machine.end(), Some(End::Fault(43)));
    let task = machine.last_task();
    assert_eq!((task.registers, task.stack.height()), (ZEROS, 0));
}

#[test]
fn a_child_in_a_slot_that_was_used_has_an_empty_stack_too() {
    let target = |label| Block {
        annotation: 2,
        label,
        ..PLAIN
    };
    let fork = |exit, child| {
        [
            instruction(opcode::JRALLOC, 1, 0, Lab(exit)),
            instruction(opcode::FORK, 0, 1, Lab(child)),
            JOIN,
        ]
    };
    const JOIN: Instruction = Instruction {
        opcode: opcode::JOIN,
        r: 0,
        s: 0,
        kind: 1,
        operand: 1,
    };
    let program = second(&[
        (PLAIN, &fork(1, 2)),
        (target(3), &fork(4, 5)),
        (PLAIN, &[push(Int(7)), JOIN]),
        (PLAIN, &[JOIN]),
        (target(3), &[HALT]),
        (PLAIN, &[pop(2), JOIN]),
    ]);
    let mut machine = start(&program, 2);
    while machine.end().is_none() {
        assert_eq!(machine.run(&program, &[], 1).map(|(_, picks)| picks), Ok(1));
        let other = &machine.slots()[1];
        assert!(other.status != Status::Vacant || *other == Slot::VACANT);
    }
    // Its pop finds nothing of the first child's.
    assert_eq!(machine.end(), Some(End::Fault(43)));
}

#[test]
fn a_halt_keeps_the_stack() {
    let mut code = vec![push(Int(1)); STACK];
    code.push(HALT);
    let program = second(&[(PLAIN, &code)]);
    let mut machine = start(&program, 1);
    assert_eq!(machine.run(&program, &[], 99), Ok((Answer::Ended, 33)));
    assert_eq!(stack(&machine, 0), [Value::Int(1); STACK]);
    // One more is a fault, and leaves none.
    code.insert(0, push(Int(2)));
    let program = second(&[(PLAIN, &code)]);
    let mut machine = start(&program, 1);
    assert_eq!(machine.run(&program, &[], 99), Ok((Answer::Ended, 33)));
    assert_eq!(machine.end(), Some(End::Fault(42)));
    assert_eq!(stack(&machine, 0), []);
}
