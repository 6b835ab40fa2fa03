//! A dispatcher's rounds pick by pick on the model, as document 02 says them, and what happens in
//! them.

use model::job::Report;
use model::{Answer, Call, Job, Machine, Status};

/// What can happen in a round. A task that was made in it could be taken too early where there is a
/// pick of the round still to come, or a lane to spare.
#[derive(Clone, Copy, Debug, PartialEq, Eq)]
pub enum Event {
    /// A task for every lane, and none left over.
    Full,
    /// Running tasks left over.
    Over,
    /// Lanes left over.
    Short,
    ForkThenPick,
    ForkWithLaneToSpare,
    JoinThenPick,
    JoinWithLaneToSpare,
    /// The job ended, with the only pick of the round.
    EndAlone,
    /// The job ended, with the last of several picks.
    EndAmong,
}

pub const EVENTS: [Event; 9] = [
    Event::Full,
    Event::Over,
    Event::Short,
    Event::ForkThenPick,
    Event::ForkWithLaneToSpare,
    Event::JoinThenPick,
    Event::JoinWithLaneToSpare,
    Event::EndAlone,
    Event::EndAmong,
];

impl Event {
    /// Whether it can happen with one lane.
    pub fn needs_no_second_lane(self) -> bool {
        matches!(self, Event::Full | Event::Over | Event::EndAlone)
    }
}

/// A job after its rounds.
pub struct Walk {
    pub machine: Machine,
    /// Begun.
    pub rounds: u64,
    times: [u64; EVENTS.len()],
}

impl Walk {
    /// How often it happened.
    pub fn times(&self, event: Event) -> u64 {
        self.times[event as usize]
    }

    fn meet(&mut self, event: Event) {
        self.times[event as usize] += 1;
    }

    /// Of a fresh start: all that was done was done here.
    pub fn report(&self) -> Report {
        let answer = match self.machine.end() {
            Some(_) => Answer::Ended,
            None => Answer::Spent,
        };
        Report::of(&self.machine, answer, self.machine.work().into())
    }

    fn round(&mut self, call: Call, lanes: usize) {
        let slots = self.machine.slots().iter().zip(0..);
        let running = slots.filter(|(slot, _)| slot.status == Status::Running);
        let mut taken: Vec<usize> = running.map(|(_, number)| number).collect();
        self.meet(if taken.len() < lanes {
            Event::Short
        } else if taken.len() > lanes {
            Event::Over
        } else {
            Event::Full
        });
        let to_spare = taken.len() < lanes;
        taken.truncate(lanes);
        for (at, &slot) in taken.iter().enumerate() {
            let places = self.machine.slots()[slot].task.places;
            let picked = self.machine.pick_in(call, slot);
            assert_eq!(picked, Ok(()), "a task taken for a round can be picked");
            let after = &self.machine.slots()[slot];
            let then_pick = at + 1 < taken.len();
            // A child joined has left its slot; a joined parent has its places again.
            if after.status == Status::Vacant || after.task.places > places {
                self.meet_made(
                    then_pick,
                    to_spare,
                    [Event::JoinThenPick, Event::JoinWithLaneToSpare],
                );
            } else if after.task.places < places {
                self.meet_made(
                    then_pick,
                    to_spare,
                    [Event::ForkThenPick, Event::ForkWithLaneToSpare],
                );
            }
        }
        if self.machine.end().is_some() {
            self.meet(if taken.len() == 1 {
                Event::EndAlone
            } else {
                Event::EndAmong
            });
        }
    }

    fn meet_made(&mut self, then_pick: bool, to_spare: bool, events: [Event; 2]) {
        if then_pick {
            self.meet(events[0]);
        }
        if to_spare {
            self.meet(events[1]);
        }
    }
}

/// From a fresh start to the end, or to the budget's last round. The work's limit is not for here: it
/// is too far.
pub fn walk(job: &Job, lanes: usize, budget: u64) -> Walk {
    let mut walk = Walk {
        machine: job.start().expect("start accepts the job"),
        rounds: 0,
        times: [0; EVENTS.len()],
    };
    let call = Call::new(&job.program, &job.words).expect("start accepts the job");
    while walk.machine.end().is_none() && walk.rounds < budget {
        walk.rounds += 1;
        walk.round(call, lanes);
    }
    walk
}

#[cfg(test)]
mod tests {
    use super::*;
    use crate::hand::{by_zero, f, f_with, outside};

    fn events(walk: &Walk) -> Vec<(Event, u64)> {
        let times = EVENTS.map(|event| (event, walk.times(event)));
        times.into_iter().filter(|(_, times)| *times > 0).collect()
    }

    #[test]
    fn what_happens_in_f() {
        let job = Job::parse(&f(2).bytes()).unwrap();
        let two = walk(&job, 2, u64::MAX);
        assert_eq!((two.rounds, two.machine.work()), (7, 9));
        // Two of the rounds have two tasks; the fork is made in one that has one, and the join by
        // the second pick of one that has two.
        let expected = [
            (Event::Full, 2),
            (Event::Short, 5),
            (Event::ForkWithLaneToSpare, 1),
            (Event::EndAlone, 1),
        ];
        assert_eq!(events(&two), expected);
        let one = walk(&job, 1, u64::MAX);
        // The parent's side has the lane first: in two rounds the child's is left over.
        let expected = [(Event::Full, 7), (Event::Over, 2), (Event::EndAlone, 1)];
        assert_eq!((one.rounds, events(&one)), (9, expected.to_vec()));
        assert_eq!(walk(&job, 2, 3).rounds, 3);
    }

    #[test]
    fn an_end_among_several_picks() {
        let job = Job::parse(&f_with(outside(), by_zero()).bytes()).unwrap();
        let walk = walk(&job, 3, u64::MAX);
        let expected = [
            (Event::Short, 3),
            (Event::ForkWithLaneToSpare, 1),
            (Event::JoinWithLaneToSpare, 1),
            (Event::EndAmong, 1),
        ];
        assert_eq!((walk.rounds, events(&walk)), (3, expected.to_vec()));
    }
}
