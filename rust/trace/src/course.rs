//! A job's states along an order, each reached in one call of the engine and not pick by pick.

use crate::order::{Order, Turns};
use crate::player::Player;
use crate::state::State;
use model::{Call, Job, Status};

/// An order whose states can be asked for by their number of picks.
pub struct Course<'a> {
    player: &'a Player,
    order: Order,
    /// The picks of the whole order, or so many as the budget allows. Of a list those that are refused
    /// count.
    pub length: u64,
}

impl<'a> Course<'a> {
    /// The orders that depend on which tasks run are drawn up as a list first.
    pub fn new(player: &'a Player, order: &Order, budget: u64) -> Result<Self, String> {
        let order = match order {
            Order::Passes | Order::Listed(_) => order.clone(),
            drawn => Order::Listed(drawn_up(player, drawn, budget)?),
        };
        let mut course = Course {
            player,
            order,
            length: budget,
        };
        course.length = match &course.order {
            Order::Listed(slots) if player.replay(slots).work() <= budget => slots.len() as u64,
            Order::Listed(slots) => course.position(budget, slots.len() as u64),
            _ => player.run(budget).work(),
        };
        Ok(course)
    }

    pub fn order(&self) -> &Order {
        &self.order
    }

    /// The state after the first picks of the order.
    pub fn after(&self, picks: u64) -> State {
        match &self.order {
            Order::Listed(slots) => self.player.replay(&slots[..picks as usize]),
            _ => self.player.run(picks),
        }
    }

    pub fn last(&self) -> State {
        self.after(self.length)
    }

    /// How far the order is gone when this work is done, if it ever is; at most `limit`. In a list some
    /// picks may be refused.
    pub fn position(&self, work: u64, limit: u64) -> u64 {
        if self.order == Order::Passes {
            return work.min(limit);
        }
        let (mut low, mut high) = (0, limit);
        while low < high {
            let middle = low + (high - low) / 2;
            if self.after(middle).work() < work {
                low = middle + 1;
            } else {
                high = middle;
            }
        }
        low
    }

    /// The order from there on.
    pub fn turns(&self, picks: u64) -> Turns<'_> {
        let last = match (&self.order, picks) {
            (Order::Passes, 1..) => {
                let before = self.after(picks - 1);
                Some(before.picked(&self.after(picks)))
            }
            _ => None,
        };
        Turns::behind(&self.order, picks as usize, last)
    }
}

/// The slots of an order that depends on which tasks run. They are drawn up on the model, since a call
/// of the engine for each pick takes a thousand times as long. The engine then carries the list out: it
/// has to accept every pick, and what is said of them is read off its states.
fn drawn_up(player: &Player, order: &Order, budget: u64) -> Result<Vec<u8>, String> {
    let slots = guessed(player.job(), order, budget)
        .map_err(|number| format!("the job was refused {}", number))?;
    if player.replay(&slots).work() == slots.len() as u64 {
        return Ok(slots);
    }
    Err("the engine does not carry out the order as it was drawn up".to_string())
}

fn guessed(job: &[u8], order: &Order, budget: u64) -> Result<Vec<u8>, u8> {
    let job = Job::parse(job)?;
    let call = Call::new(&job.program, &job.words)?;
    let mut machine = job.start()?;
    let mut turns = Turns::new(order);
    let mut slots = Vec::new();
    while machine.end().is_none() && (slots.len() as u64) < budget {
        let bit = |(number, slot): (usize, &model::Slot)| {
            u64::from(slot.status == Status::Running) << number
        };
        let running = machine.slots().iter().enumerate().map(bit).sum();
        match turns.next(running) {
            Some(slot) if machine.pick_in(call, slot).is_ok() => slots.push(slot as u8),
            _ => break,
        }
    }
    Ok(slots)
}
