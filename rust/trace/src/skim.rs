//! The picks at which a fault came up or was passed outward, found by halving: the slots of faulted
//! tasks only grow, so where they are the same at both ends of a stretch nothing happened to them in it.

use crate::course::Course;
use crate::effect::Pick;
use crate::faults::Faults;
use crate::order::Turns;
use crate::player::Player;
use crate::state::State;
use crate::watch::{Observer, Watch};
use model::Program;
use std::io;

/// A stretch is gone through pick by pick where it is this part of all that comes before its end: the
/// state in its middle would take as long.
const SHORT: u64 = 256;

/// Goes over a stretch of a course, from so many picks to so many, and notes its faults.
pub struct Skim<'a> {
    pub player: &'a Player,
    pub program: &'a Program,
    pub course: &'a Course<'a>,
}

/// Notes the faults of every pick.
struct Noted<'a>(&'a mut Faults);

impl Observer for Noted<'_> {
    fn picked(&mut self, pick: &Pick, _: &Turns) -> io::Result<()> {
        self.0.note(pick);
        Ok(())
    }
}

impl Skim<'_> {
    /// Notes the faults of the picks behind `from`, up to `to`.
    pub fn note(&self, from: u64, to: u64, faults: &mut Faults) -> io::Result<()> {
        let ends = [self.course.after(from), self.course.after(to)];
        self.halve([from, to], [&ends[0], &ends[1]], faults)
    }

    fn halve(
        &self,
        [from, to]: [u64; 2],
        [first, last]: [&State; 2],
        faults: &mut Faults,
    ) -> io::Result<()> {
        if first.faulted() == last.faulted() {
            return Ok(());
        }
        if to - from <= to / SHORT + 1 {
            let watch = Watch {
                player: self.player,
                program: self.program,
            };
            let turns = &mut self.course.turns(from);
            watch.until(last.work(), first.clone(), turns, &mut Noted(faults))?;
            return Ok(());
        }
        let middle = from + (to - from) / 2;
        let state = self.course.after(middle);
        self.halve([from, middle], [first, &state], faults)?;
        self.halve([middle, to], [&state, last], faults)
    }
}
