//! Orders of picks: which of the running tasks comes next.

use checks::random::Random;
use model::MAX_PLACES;

#[derive(Clone, Debug, PartialEq, Eq)]
pub enum Order {
    /// Over the slots again and again, as the run program.
    Passes,
    /// Always the first running task in slot order.
    First,
    /// Always the last.
    Last,
    /// Drawn by lot among those that run; the seed decides.
    Random(u64),
    /// These slots; what the engine refuses is passed over.
    Listed(Vec<u8>),
    /// In rounds: the first tasks that run when a round begins, one a lane.
    Lanes(u64),
}

/// How an order is written.
pub const ORDERS: &str = "passes, first, last, random:SEED or a file of slots";

/// The orders that have a name. None: it is another's.
pub fn named(word: &str) -> Option<Order> {
    match word {
        "passes" => Some(Order::Passes),
        "first" => Some(Order::First),
        "last" => Some(Order::Last),
        _ => {
            let seed = word.strip_prefix("random:")?;
            seed.parse().ok().map(Order::Random)
        }
    }
}

/// A text of slots, with spaces or lines between them and `//` before a comment. The error is the line
/// and what was found there.
pub fn listed(text: &str) -> Result<Order, (usize, String)> {
    let mut slots = Vec::new();
    for (number, line) in (1..).zip(text.lines()) {
        let line = line.split("//").next().unwrap_or_default();
        for word in line.split_whitespace() {
            let slot = word.parse().ok();
            let slot = slot.filter(|slot| u64::from(*slot) < MAX_PLACES);
            slots.push(slot.ok_or_else(|| (number, word.to_string()))?);
        }
    }
    Ok(Order::Listed(slots))
}

/// A place in an order.
pub struct Turns<'a> {
    order: &'a Order,
    /// The next slot of a pass, or the next of the list.
    at: usize,
    /// The slots that the round still has to pick.
    row: u64,
    rounds: u64,
    random: Random,
}

impl<'a> Turns<'a> {
    pub fn new(order: &'a Order) -> Self {
        let seed = match order {
            Order::Random(seed) => *seed,
            _ => 0,
        };
        Turns {
            order,
            at: 0,
            row: 0,
            rounds: 0,
            random: Random::new(seed, 0),
        }
    }

    /// Behind so many picks, of which the last was of this slot.
    pub fn behind(order: &'a Order, picks: usize, slot: Option<usize>) -> Self {
        let at = match order {
            Order::Listed(_) => picks,
            _ => slot.map_or(0, |slot| slot + 1),
        };
        Turns {
            at,
            ..Turns::new(order)
        }
    }

    /// Rounds begun.
    pub fn rounds(&self) -> u64 {
        self.rounds
    }

    /// The slots that this round still has to pick, after the one that came last.
    pub fn row(&self) -> u64 {
        self.row
    }

    /// The next slot, of a state in which these run, some of them. None: the list is at its end.
    pub fn next(&mut self, running: u64) -> Option<usize> {
        match self.order {
            Order::Passes => Some(self.next_of_pass(running)),
            Order::First => Some(running.trailing_zeros() as usize),
            Order::Last => Some(63 - running.leading_zeros() as usize),
            Order::Random(_) => {
                let count = running.count_ones() as usize;
                Some(nth(running, self.random.below(count)))
            }
            Order::Listed(slots) => {
                let next = slots.get(self.at)?;
                self.at += 1;
                Some((*next).into())
            }
            Order::Lanes(lanes) => Some(self.next_of_round(running, *lanes)),
        }
    }

    fn next_of_pass(&mut self, running: u64) -> usize {
        let ahead = match self.at {
            64 => 0,
            at => running & (u64::MAX << at),
        };
        let ahead = if ahead == 0 { running } else { ahead };
        let slot = ahead.trailing_zeros() as usize;
        self.at = slot + 1;
        slot
    }

    fn next_of_round(&mut self, running: u64, lanes: u64) -> usize {
        if self.row == 0 {
            self.rounds += 1;
            let mut rest = running;
            for _ in 0..lanes {
                rest &= rest.wrapping_sub(1);
            }
            self.row = running & !rest;
        }
        let slot = self.row.trailing_zeros() as usize;
        self.row &= self.row - 1;
        slot
    }
}

/// The place of the set bit that has so many set ones below it.
fn nth(bits: u64, number: usize) -> usize {
    let mut rest = bits;
    for _ in 0..number {
        rest &= rest - 1;
    }
    rest.trailing_zeros() as usize
}
