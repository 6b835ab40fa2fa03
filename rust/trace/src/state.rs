//! A state that the engine has left, as its bytes are read. Where a number stands is known to
//! `model::state` alone.

use model::{state, End, Slot, Status};

#[derive(Clone, Debug, PartialEq, Eq)]
pub struct State(pub(crate) Vec<u8>);

/// A part of the slots: a side of a fork, or all of them at depth 0.
#[derive(Clone, Copy, Debug, PartialEq, Eq)]
pub struct Region {
    /// Its first slot, where its task sits if it is one task's.
    pub slot: usize,
    pub depth: usize,
}

impl State {
    pub fn places(&self) -> usize {
        state::places(&self.0) as usize
    }

    /// The picks carried out so far.
    pub fn work(&self) -> u64 {
        state::work(&self.0)
    }

    pub fn slot(&self, number: usize) -> Slot {
        state::slot(&self.0, number).expect("the engine has left these bytes")
    }

    /// Bit k is set when slot k has a running task.
    pub fn running(&self) -> u64 {
        state::running_slots(&self.0)
    }

    /// The slots that have a task, running or not.
    pub fn live(&self) -> impl Iterator<Item = (usize, Slot)> + '_ {
        let slots = (0..self.places()).map(move |number| (number, self.slot(number)));
        slots.filter(|(_, slot)| slot.status != Status::Vacant)
    }

    /// How the job ended, if it has.
    pub fn end(&self) -> Option<End> {
        let slot = self.slot(0);
        match slot.status {
            Status::Halted => Some(End::Halt),
            Status::Faulted(number) if slot.task.depth() == 0 => Some(End::Fault(number)),
            _ => None,
        }
    }

    /// The slots that a region at this depth has.
    pub fn width(&self, depth: usize) -> usize {
        self.places() >> depth
    }

    /// The region at this depth that has this slot.
    pub fn region(&self, slot: usize, depth: usize) -> Region {
        Region {
            slot: slot & !(self.width(depth) - 1),
            depth,
        }
    }

    /// The other side of the same fork.
    pub fn other_side(&self, region: Region) -> Region {
        Region {
            slot: region.slot ^ self.width(region.depth),
            ..region
        }
    }

    /// The region of the one task that now has this slot, from this depth outward.
    pub fn covering(&self, slot: usize, depth: usize) -> Region {
        let regions = (0..=depth).rev().map(|depth| self.region(slot, depth));
        let mut of_a_task = regions.filter(|region| {
            let here = self.slot(region.slot);
            here.status != Status::Vacant && here.task.depth() == region.depth
        });
        of_a_task.next().expect("the tasks tile the slots")
    }

    /// The slots of faulted tasks. A task stays faulted, and joined with another it has more slots: so
    /// they grow and never shrink.
    pub fn faulted(&self) -> u64 {
        let mut slots = 0;
        for (number, slot) in self.live() {
            if matches!(slot.status, Status::Faulted(_)) {
                let all = u64::MAX >> (64 - u32::from(slot.task.places));
                slots |= all << number;
            }
        }
        slots
    }

    /// The slot that was picked when this state became the next one: of the running tasks it alone has
    /// changed.
    pub fn picked(&self, next: &State) -> usize {
        let running = self.running();
        let changed = |&slot: &usize| {
            running & (1 << slot) != 0 && !state::is_same_slot(&self.0, &next.0, slot)
        };
        let picked = (0..self.places()).find(changed);
        picked.expect("a pick changes the task that is picked")
    }

    /// The same with an ended side's task put back to running: what the other side's next instruction
    /// does is then seen in its own slot, since the two are not joined.
    pub fn with_running(&self, slot: usize) -> State {
        let mut changed = self.clone();
        state::set_running(&mut changed.0, slot);
        changed
    }
}
