//! One number of a state changed.

use super::{other, set, Damage, LIKELY};
use crate::numbers::number_at;
use crate::random::Random;
use model::state::{FORKS_AT, HEIGHT_AT, JOB_NUMBERS, REGISTERS_AT, SLOT_NUMBERS, STACK_AT};
use model::task::MAX_DEPTH;
use model::{MAX_PLACES, REGISTERS, STACK, WORK_LIMIT};

/// A number's kind in a state: the job's first, then a slot's.
pub const JOB_FIELDS: [&str; 3] = ["P", "interval", "work"];
pub const SLOT_FIELDS: [&str; 16] = [
    "status",
    "fault number",
    "places",
    "program counter",
    "counter",
    "span",
    "depth",
    "fork's continuation",
    "fork's depth",
    "register's kind",
    "register's first number",
    "register's second number",
    "stack's height",
    "entry's kind",
    "entry's first number",
    "entry's second number",
];
const FAULT_NUMBER: usize = 1;
const REGISTER_FIELDS: usize = FORKS_AT + 2;
const HEIGHT_FIELD: usize = REGISTER_FIELDS + 3;
const ENTRY_FIELDS: usize = HEIGHT_FIELD + 1;

/// What sits in the slot of a damaged number.
pub const SITTERS: [&str; 6] = [
    "nobody",
    "a running task",
    "a waiting task",
    "a halted task",
    "a faulted task",
    "nobody, from P on",
];
const FAULTED: usize = 4;

/// The field of a slot's number.
fn slot_field(at: usize) -> usize {
    if at < FORKS_AT {
        at
    } else if at < REGISTERS_AT {
        FORKS_AT + (at - FORKS_AT) % 2
    } else if at < HEIGHT_AT {
        REGISTER_FIELDS + (at - REGISTERS_AT) % 3
    } else if at < STACK_AT {
        HEIGHT_FIELD
    } else {
        ENTRY_FIELDS + (at - STACK_AT) % 3
    }
}

/// The index of one of a field's numbers in a slot. Of registers, those that hold no integer are as
/// likely as all together; of a stack's entries, those below and those around its height.
fn slot_index(random: &mut Random, state: &[u8], slot: usize, field: usize) -> usize {
    let first = JOB_NUMBERS + SLOT_NUMBERS * slot;
    match field.checked_sub(FORKS_AT) {
        None => first + field,
        Some(part @ 0..=1) => first + FORKS_AT + 2 * random.below(MAX_DEPTH) + part,
        Some(_) if field == HEIGHT_FIELD => first + HEIGHT_AT,
        Some(_) if field >= ENTRY_FIELDS => {
            first + STACK_AT + 3 * entry(random, state, first) + field - ENTRY_FIELDS
        }
        Some(part) => {
            let registers = first + REGISTERS_AT;
            let others = no_integers(state, registers, REGISTERS);
            let register = if others.is_empty() || random.one_in(2) {
                random.below(REGISTERS)
            } else {
                random.pick(&others)
            };
            registers + 3 * register + part - 2
        }
    }
}

/// Of the values whose numbers begin here, those that are no integers.
fn no_integers(state: &[u8], at: usize, count: usize) -> Vec<usize> {
    let values = 0..count;
    values
        .filter(|value| number_at(state, at + 3 * value) != 0)
        .collect()
}

/// An entry of the stack of the slot whose numbers begin here.
fn entry(random: &mut Random, state: &[u8], first: usize) -> usize {
    let height = number_at(state, first + HEIGHT_AT).min(STACK as u64) as usize;
    let others = no_integers(state, first + STACK_AT, height);
    match random.below(5) {
        0 => random.below(STACK),
        1 => height.min(STACK - 1),
        2 => height.saturating_sub(1),
        3 if !others.is_empty() => random.pick(&others),
        _ => random.below(height.max(1)),
    }
}

fn sitter(state: &[u8], slot: usize) -> usize {
    if slot as u64 >= number_at(state, 0) {
        return SITTERS.len() - 1;
    }
    let status = number_at(state, JOB_NUMBERS + SLOT_NUMBERS * slot);
    status.min(4) as usize
}

/// Changes one number of a state that has its length.
pub fn damage_state(random: &mut Random, state: &mut [u8]) -> Damage {
    if random.one_in(12) {
        if let Some(damage) = damage_rare(random, state) {
            return damage;
        }
    }
    if random.one_in(6) {
        let field = random.below(JOB_NUMBERS);
        let old = number_at(state, field);
        let likely = [
            0,
            1,
            2,
            4,
            7,
            8,
            64,
            65,
            128,
            65_535,
            65_536,
            WORK_LIMIT.into(),
            1 << 32,
            u64::MAX,
        ];
        let (new, manner) = other(random, old, &likely);
        set(state, field, new);
        return Damage::JobNumber { field, manner };
    }
    let live: Vec<usize> = (0..MAX_PLACES as usize)
        .filter(|&slot| matches!(sitter(state, slot), 1..=4))
        .collect();
    let slot = if live.is_empty() || random.one_in(3) {
        random.below(MAX_PLACES as usize)
    } else {
        random.pick(&live)
    };
    let field = random.below(SLOT_FIELDS.len());
    let index = slot_index(random, state, slot, field);
    damage_number(random, state, index)
}

/// Changes what is seldom there: the number of a fault to that of a stack's or one beside it, or the
/// depth of a record on a stack.
fn damage_rare(random: &mut Random, state: &mut [u8]) -> Option<Damage> {
    let slots: Vec<usize> = (0..MAX_PLACES as usize).collect();
    let faulted = slots.iter().filter(|&&slot| sitter(state, slot) == FAULTED);
    let mut places: Vec<(usize, u64)> = faulted
        .map(|slot| JOB_NUMBERS + SLOT_NUMBERS * slot + FAULT_NUMBER)
        .map(|place| (place, random.between(41, 44) as u64))
        .collect();
    for slot in slots {
        let entries = JOB_NUMBERS + SLOT_NUMBERS * slot + STACK_AT;
        let is_record = |entry: &usize| number_at(state, entries + 3 * entry) == 2;
        let records = (0..STACK).filter(is_record);
        places.extend(records.map(|entry| (entries + 3 * entry + 2, random.bits() >> 32)));
    }
    if places.is_empty() {
        return None;
    }
    let (index, new) = random.pick(&places);
    Some(damaged(state, index, new, LIKELY))
}

/// Changes the slot's number at this index of a state.
fn damage_number(random: &mut Random, state: &mut [u8], index: usize) -> Damage {
    let work = number_at(state, 2);
    let likely = [
        0,
        1,
        2,
        3,
        4,
        5,
        9,
        random.between(30, 45) as u64,
        random.below(130) as u64,
        random.below(1025) as u64,
        255,
        256,
        65_536,
        work,
        work.wrapping_add(1),
        STACK as u64,
        STACK as u64 + 1,
        u32::MAX.into(),
        1 << 32,
        u64::MAX,
    ];
    let (new, manner) = other(random, number_at(state, index), &likely);
    damaged(state, index, new, manner)
}

/// Puts this number at this index of a state, which is a slot's.
fn damaged(state: &mut [u8], index: usize, new: u64, manner: usize) -> Damage {
    let (slot, at) = (
        (index - JOB_NUMBERS) / SLOT_NUMBERS,
        (index - JOB_NUMBERS) % SLOT_NUMBERS,
    );
    let sitter = sitter(state, slot);
    set(state, index, new);
    let height = number_at(state, JOB_NUMBERS + SLOT_NUMBERS * slot + HEIGHT_AT);
    let entry = at.checked_sub(STACK_AT).map(|at| at as u64 / 3);
    Damage::SlotNumber {
        field: slot_field(at),
        sitter,
        manner,
        below_height: entry.map(|entry| entry < height),
        number: new,
    }
}

/// Whether it is the number of a faulted task's fault that was changed.
pub fn is_fault_number(field: usize, sitter: usize) -> bool {
    field == FAULT_NUMBER && sitter == FAULTED
}
