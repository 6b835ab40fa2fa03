//! The dispatcher of document 02: rounds over 1 to 8 lanes.

use super::{Answer, Call, Machine, WORK_LIMIT};
use crate::task::Surroundings;
use crate::{question, Program};
use std::iter;

pub const MAX_LANES: u64 = 8;

/// What a budget of rounds comes to.
#[derive(Clone, Copy, Debug, PartialEq, Eq)]
pub struct Dispatched {
    pub answer: Answer,
    /// Carried out.
    pub picks: u64,
    /// Begun, so that one which the work's limit cut short is among them.
    pub rounds: u64,
}

/// Question 41. Hands the lanes back as a count.
pub(crate) fn check_lanes(lanes: u64) -> Result<usize, u8> {
    if (1..=MAX_LANES).contains(&lanes) {
        Ok(lanes as usize)
    } else {
        Err(question::LANES)
    }
}

/// The slots of these bits, the lowest first.
fn slots(mut bits: u64) -> impl Iterator<Item = usize> {
    iter::from_fn(move || {
        let slot = bits.trailing_zeros();
        // Without the lowest; None once there is no bit left.
        bits &= bits.checked_sub(1)?;
        Some(slot as usize)
    })
}

impl Machine {
    /// Works in rounds until the job has ended, so many rounds are done or the work stands at its
    /// limit. The questions are a pick's up to 20, with 41 before 20.
    pub fn dispatch(
        &mut self,
        program: &Program,
        words: &[i64],
        lanes: u64,
        rounds: u64,
    ) -> Result<Dispatched, u8> {
        let call = Call::new(program, words)?;
        let lanes = check_lanes(lanes)?;
        self.check_shape(program)?;
        Ok(self.dispatch_in(call, lanes, rounds))
    }

    /// A dispatch whose questions have been put.
    pub(crate) fn dispatch_in(&mut self, call: Call, lanes: usize, budget: u64) -> Dispatched {
        let before = self.work;
        let surroundings = self.surroundings(call);
        let mut rounds = 0;
        let answer = loop {
            if self.end().is_some() {
                break Answer::Ended;
            }
            if rounds == budget || self.work == WORK_LIMIT {
                break Answer::Spent;
            }
            rounds += 1;
            self.round(&surroundings, lanes);
        };
        Dispatched {
            answer,
            picks: (self.work - before).into(),
            rounds,
        }
    }

    /// Picks the first tasks that are running now, one a lane. A pick stops no other running task,
    /// so each is still running in its turn; what the picks make is not among them.
    fn round(&mut self, surroundings: &Surroundings, lanes: usize) {
        for slot in slots(self.running).take(lanes) {
            if self.work == WORK_LIMIT {
                return;
            }
            self.carry_out(surroundings, slot);
        }
    }
}

#[cfg(test)]
mod tests;
