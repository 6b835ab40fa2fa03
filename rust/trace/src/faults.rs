//! What becomes of each fault: it waits, is passed outward, or is set aside for the parent's.

use crate::effect::{Effect, Pick, Side};
use std::collections::BTreeMap;

/// A fault inside a task.
#[derive(Clone, Debug, PartialEq, Eq)]
pub struct Fault {
    pub number: u8,
    /// The pick that met it, and its slot.
    pub pick: u64,
    pub slot: usize,
    /// The number of the instruction.
    pub pc: usize,
    /// The slots of the joined tasks that it was passed to, and their picks.
    pub outward: Vec<(usize, u64)>,
}

/// A join of two sides of which one or both faulted.
#[derive(Clone, Copy, Debug, PartialEq, Eq)]
pub struct Passed {
    /// Of the joined task, which is faulted with `number`.
    pub slot: usize,
    pub number: u8,
    /// The slot of the side that had ended before.
    pub other: usize,
    /// The faults of the side that has ended now, and of the other.
    pub numbers: [Option<u8>; 2],
}

/// The faults of a job so far.
#[derive(Clone, Debug, Default)]
pub struct Faults {
    /// By the slot of the faulted task.
    carried: BTreeMap<usize, Fault>,
    /// Those of children whose parents had faulted too.
    pub aside: Vec<Fault>,
}

impl Faults {
    /// The fault that a faulted task has its number from.
    pub fn carried(&self, slot: usize) -> Option<&Fault> {
        self.carried.get(&slot)
    }

    /// Notes what a pick did to faults, and hands back the joins of sides of which one or both faulted,
    /// from the innermost outward.
    pub fn note(&mut self, pick: &Pick) -> Vec<Passed> {
        match &pick.effect {
            Effect::Ended(side) => self.note_side(pick, side),
            _ => Vec::new(),
        }
    }

    fn note_side(&mut self, pick: &Pick, side: &Side) -> Vec<Passed> {
        let mut passed = Vec::new();
        let mut winner = side.fault.map(|number| Fault {
            number,
            pick: pick.number,
            slot: pick.slot,
            pc: pick.pc,
            outward: Vec::new(),
        });
        for depth in (side.now.depth + 1..=side.own.depth).rev() {
            let region = pick.before.region(pick.slot, depth);
            let other = pick.before.other_side(region).slot;
            let others = self.carried.remove(&other);
            let numbers = [&winner, &others].map(|fault| Some(fault.as_ref()?.number));
            winner = self.joined(region.slot < other, winner, others);
            if let Some(fault) = &mut winner {
                let slot = region.slot.min(other);
                fault.outward.push((slot, pick.number));
                passed.push(Passed {
                    slot,
                    other,
                    numbers,
                    number: fault.number,
                });
            }
        }
        if let Some(fault) = winner {
            self.carried.insert(side.now.slot, fault);
        }
        passed
    }

    /// The parent's fault if it has one, else the child's.
    fn joined(
        &mut self,
        is_parent: bool,
        own: Option<Fault>,
        others: Option<Fault>,
    ) -> Option<Fault> {
        let (parent, child) = if is_parent {
            (own, others)
        } else {
            (others, own)
        };
        if parent.is_none() {
            return child;
        }
        self.aside.extend(child);
        parent
    }
}
