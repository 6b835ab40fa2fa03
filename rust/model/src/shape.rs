//! The shape test of docs/machine.md, which question 20 puts to a state and the program handed in.
//! Slots from P on have no counterpart here, nor have stack entries from the height on:
//! [`crate::state::read`] asks whether they are vacant, and 0.

use crate::fault;
use crate::image::{Block, Program};
use crate::machine::{allows_interval, allows_places, running, Machine, Slot, Status};
use crate::stack::STACK;
use crate::task::{Task, Value, ZEROS};

pub fn meets(machine: &Machine, program: &Program) -> bool {
    allows_places(machine.places() as u64)
        && allows_interval(machine.interval.into())
        && machine.running == running(&machine.slots)
        && is_tiled(&machine.slots)
        && machine
            .slots
            .iter()
            .all(|slot| fits(machine, program, slot))
}

/// Whether the tasks tile the slots, each in the first slot of its places, and no two sides of one
/// fork have both ended. A task's places are a power of two that divides its slot's number, so it
/// has one of the halves, of the halves of these, and so on.
fn is_tiled(slots: &[Slot]) -> bool {
    let mut at = 0;
    while at < slots.len() {
        let slot = &slots[at];
        let width = usize::from(slot.task.places);
        if slot.status == Status::Vacant || !width.is_power_of_two() || at % width != 0 {
            return false;
        }
        let others = match slots.get(at + 1..at + width) {
            Some(others) => others,
            None => return false,
        };
        if others.iter().any(|other| other.status != Status::Vacant) {
            return false;
        }
        // A child's side comes after the parent's.
        if at & width != 0 && both_ended(&slots[at - width], slot) {
            return false;
        }
        at += width;
    }
    true
}

/// Of the two slots where the sides of a fork begin. A task that has fewer places than the other is
/// deeper, and has ended no more than a part of its side.
fn both_ended(parent: &Slot, child: &Slot) -> bool {
    parent.has_ended_side() && child.has_ended_side() && parent.task.places == child.task.places
}

/// What is asked of each slot by itself.
fn fits(machine: &Machine, program: &Program, slot: &Slot) -> bool {
    if slot.status == Status::Vacant {
        return slot.task == Task::NONE;
    }
    let task = &slot.task;
    task.has_clear_forks()
        && usize::from(task.places) << task.depth() == machine.places()
        && usize::from(task.pc) < program.instructions.len()
        && task.counter <= machine.work
        && task.span <= machine.work
        && has_status(program, task, slot.status)
        && task
            .forks()
            .iter()
            .all(|fork| is_join_target(program, fork.continuation))
        && task.stack.height() <= STACK
        && values(task).all(|value| is_of(program, value))
}

/// What registers and stack hold.
fn values(task: &Task) -> impl Iterator<Item = Value> + '_ {
    task.registers.iter().chain(task.stack.values()).copied()
}

fn has_status(program: &Program, task: &Task, status: Status) -> bool {
    if status != Status::Running && (task.pc, task.counter) != (0, 0) {
        return false;
    }
    match status {
        Status::Vacant | Status::Running => true,
        Status::Waiting => task.depth() > 0,
        Status::Halted => task.depth() == 0,
        Status::Faulted(number) => {
            fault::of(program.version).contains(&number)
                && task.registers == ZEROS
                && task.stack.height() == 0
        }
    }
}

/// Whether a value names only what the program has.
fn is_of(program: &Program, value: Value) -> bool {
    match value {
        Value::Int(_) => true,
        Value::Label(label) => usize::from(label) < program.blocks.len(),
        Value::Record(record) => is_join_target(program, record.continuation),
    }
}

fn is_join_target(program: &Program, label: u8) -> bool {
    let block = program.blocks.get(usize::from(label));
    block.map_or(false, Block::is_join_target)
}

#[cfg(test)]
mod tests;
