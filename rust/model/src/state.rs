//! A state's bytes, laid out as in docs/api.md, and the machine that they stand for.

use crate::machine::{allows_places, running, Machine, Slot, Status, MAX_PLACES};
use crate::numbers::{self, number_at};
use crate::report::{self, REGISTER_NUMBERS, VALUE_NUMBERS};
use crate::stack::{Stack, STACK};
use crate::task::{Record, Task, Value, MAX_DEPTH, NO_FORK, ZEROS};

/// Numbers before the slots': P, interval and work.
pub const JOB_NUMBERS: usize = 3;
/// Places of a slot's numbers: status, fault number, places, program counter, counter, span and
/// depth come first.
pub const FORKS_AT: usize = 7;
pub const FORK_NUMBERS: usize = 2;
pub const REGISTERS_AT: usize = FORKS_AT + MAX_DEPTH * FORK_NUMBERS;
pub const HEIGHT_AT: usize = REGISTERS_AT + REGISTER_NUMBERS;
pub const STACK_AT: usize = HEIGHT_AT + 1;
pub const SLOT_NUMBERS: usize = STACK_AT + VALUE_NUMBERS * STACK;
pub const NUMBERS: usize = JOB_NUMBERS + MAX_PLACES as usize * SLOT_NUMBERS;

/// Length of a state.
pub const BYTES: usize = numbers::BYTES * NUMBERS;
const SLOT_BYTES: usize = numbers::BYTES * SLOT_NUMBERS;

const VACANT: [u8; SLOT_BYTES] = [0; SLOT_BYTES];

/// Writes a machine's state over `out`, which has `BYTES`. Every slot is there, those from P on too.
pub fn write(machine: &Machine, out: &mut [u8]) {
    let (job, slots) = out.split_at_mut(numbers::BYTES * JOB_NUMBERS);
    let numbers = [
        machine.places() as u64,
        machine.interval().into(),
        machine.work().into(),
    ];
    numbers::write(numbers, job);
    let (used, unused) = slots.split_at_mut(SLOT_BYTES * machine.places());
    for (slot, out) in machine
        .slots()
        .iter()
        .zip(used.chunks_exact_mut(SLOT_BYTES))
    {
        write_slot(slot, out);
    }
    unused.fill(0);
}

fn write_slot(slot: &Slot, out: &mut [u8]) {
    let (status, fault) = match slot.status {
        Status::Vacant => return out.copy_from_slice(&VACANT),
        Status::Running => (1, 0),
        Status::Waiting => (2, 0),
        Status::Halted => (3, 0),
        Status::Faulted(number) => (4, number.into()),
    };
    let task = &slot.task;
    let numbers = [
        status,
        fault,
        task.places.into(),
        task.pc.into(),
        task.counter.into(),
        task.span.into(),
        task.depth.into(),
    ];
    let (front, rest) = out.split_at_mut(numbers::BYTES * REGISTERS_AT);
    let (registers, stack) = rest.split_at_mut(numbers::BYTES * REGISTER_NUMBERS);
    let forks = task.forks.iter();
    let forks = forks.flat_map(|fork| [fork.continuation.into(), fork.depth.into()]);
    numbers::write(numbers.into_iter().chain(forks), front);
    report::write_values(&task.registers, registers);
    write_stack(&task.stack, stack);
}

/// The height, the values below it, and integers 0 from it on, which are zeros throughout.
fn write_stack(stack: &Stack, out: &mut [u8]) {
    let (height, entries) = out.split_at_mut(numbers::BYTES);
    numbers::write([stack.height() as u64], height);
    let (used, unused) = entries.split_at_mut(numbers::BYTES * VALUE_NUMBERS * stack.height());
    report::write_values(stack.values(), used);
    unused.fill(0);
}

pub fn bytes(machine: &Machine) -> Vec<u8> {
    let mut bytes = vec![0; BYTES];
    write(machine, &mut bytes);
    bytes
}

/// The machine that `bytes`, of which there are `BYTES`, stand for. None: they stand for no state,
/// or for one that meets the shape test for no program, because P is not allowed, a slot from P on
/// is not vacant, a stack is higher than 32 or holds something from its height on, or a number is
/// larger than the machine has room for.
pub fn read(bytes: &[u8]) -> Option<Machine> {
    let places = number_at(bytes, 0);
    if !allows_places(places) {
        return None;
    }
    let slots = &bytes[numbers::BYTES * JOB_NUMBERS..];
    let (used, unused) = slots.split_at(SLOT_BYTES * places as usize);
    if unused.chunks_exact(SLOT_BYTES).any(|slot| slot != VACANT) {
        return None;
    }
    let mut slots = Vec::with_capacity(places as usize);
    for bytes in used.chunks_exact(SLOT_BYTES) {
        slots.push(read_slot(bytes)?);
    }
    Some(Machine {
        interval: number_at(bytes, 1).try_into().ok()?,
        work: number_at(bytes, 2).try_into().ok()?,
        running: running(&slots),
        slots,
    })
}

fn read_slot(bytes: &[u8]) -> Option<Slot> {
    if bytes == VACANT {
        return Some(Slot::VACANT);
    }
    let status = match (number_at(bytes, 0), number_at(bytes, 1)) {
        (0, 0) => Status::Vacant,
        (1, 0) => Status::Running,
        (2, 0) => Status::Waiting,
        (3, 0) => Status::Halted,
        (4, number) => Status::Faulted(number.try_into().ok()?),
        _ => return None,
    };
    let mut forks = [NO_FORK; MAX_DEPTH];
    for (fork, at) in forks.iter_mut().zip((FORKS_AT..).step_by(FORK_NUMBERS)) {
        *fork = record(number_at(bytes, at), number_at(bytes, at + 1))?;
    }
    let mut registers = ZEROS;
    for (register, at) in registers
        .iter_mut()
        .zip((REGISTERS_AT..).step_by(VALUE_NUMBERS))
    {
        *register = value_at(bytes, at)?;
    }
    let task = Task {
        registers,
        stack: read_stack(bytes)?,
        places: number_at(bytes, 2).try_into().ok()?,
        pc: number_at(bytes, 3).try_into().ok()?,
        counter: number_at(bytes, 4).try_into().ok()?,
        span: number_at(bytes, 5).try_into().ok()?,
        depth: number_at(bytes, 6).try_into().ok()?,
        forks,
    };
    Some(Slot { status, task })
}

/// None also where the height is above the stack's room, or an entry from the height on is not 0.
fn read_stack(bytes: &[u8]) -> Option<Stack> {
    let height: usize = number_at(bytes, HEIGHT_AT).try_into().ok()?;
    let entries = &bytes[numbers::BYTES * STACK_AT..];
    let used = height.checked_mul(numbers::BYTES * VALUE_NUMBERS)?;
    if entries.get(used..)?.iter().any(|&byte| byte != 0) {
        return None;
    }
    let places = (STACK_AT..).step_by(VALUE_NUMBERS).take(height);
    let values: Option<Vec<Value>> = places.map(|at| value_at(bytes, at)).collect();
    values.map(Stack::of)
}

fn value_at(bytes: &[u8], at: usize) -> Option<Value> {
    value([at, at + 1, at + 2].map(|at| number_at(bytes, at)))
}

/// Number of slots of the state that `bytes` stand for.
pub fn places(bytes: &[u8]) -> u64 {
    number_at(bytes, 0)
}

pub fn work(bytes: &[u8]) -> u64 {
    number_at(bytes, 2)
}

fn slot_bytes(bytes: &[u8], number: usize) -> &[u8] {
    let at = numbers::BYTES * JOB_NUMBERS + SLOT_BYTES * number;
    &bytes[at..at + SLOT_BYTES]
}

/// One slot alone. None: its bytes stand for none.
pub fn slot(bytes: &[u8], number: usize) -> Option<Slot> {
    read_slot(slot_bytes(bytes, number))
}

/// Whether a slot of two states is the same.
pub fn is_same_slot(one: &[u8], other: &[u8], number: usize) -> bool {
    slot_bytes(one, number) == slot_bytes(other, number)
}

/// Bit k is set when slot k has a running task.
pub fn running_slots(bytes: &[u8]) -> u64 {
    let bit = |number| u64::from(number_at(slot_bytes(bytes, number), 0) == 1) << number;
    (0..places(bytes) as usize).map(bit).sum()
}

/// A task that has ended its side is put back to running, at the first instruction of all.
pub fn set_running(bytes: &mut [u8], number: usize) {
    let at = numbers::BYTES * JOB_NUMBERS + SLOT_BYTES * number;
    numbers::write([1, 0], &mut bytes[at..]);
}

fn record(continuation: u64, depth: u64) -> Option<Record> {
    Some(Record {
        continuation: continuation.try_into().ok()?,
        depth: depth.try_into().ok()?,
    })
}

fn value(numbers: [u64; 3]) -> Option<Value> {
    match numbers {
        [0, integer, 0] => Some(Value::Int(integer as i64)),
        [1, label, 0] => Some(Value::Label(label.try_into().ok()?)),
        [2, continuation, depth] => record(continuation, depth).map(Value::Record),
        _ => None,
    }
}

#[cfg(test)]
mod tests;
