//! A job gone through pick by pick.

use crate::effect::Pick;
use crate::order::Turns;
use crate::player::Player;
use crate::state::State;
use model::{question, Program};
use std::io;

/// Is told of every pick.
pub trait Observer {
    fn picked(&mut self, pick: &Pick, turns: &Turns) -> io::Result<()>;

    /// A pick of this slot was refused, with this number.
    fn refused(&mut self, _slot: usize, _number: u8) -> io::Result<()> {
        Ok(())
    }
}

/// What is gone through.
#[derive(Clone, Copy)]
pub struct Watch<'a> {
    pub player: &'a Player,
    pub program: &'a Program,
}

impl Watch<'_> {
    /// Goes on from a state until the job has ended, the order is at its end, or this much work is done.
    /// Hands back the last state.
    pub fn until(
        &self,
        work: u64,
        from: State,
        turns: &mut Turns,
        observer: &mut dyn Observer,
    ) -> io::Result<State> {
        let mut before = from;
        let mut after = before.clone();
        while before.end().is_none() && before.work() < work {
            let slot = match turns.next(before.running()) {
                Some(slot) => slot,
                None => break,
            };
            match self.player.pick(&mut after, slot) {
                Ok(()) => {
                    let pick = Pick::new(self.player, self.program, [&before, &after], slot);
                    observer.picked(&pick, turns)?;
                    before.0.copy_from_slice(&after.0);
                }
                Err(question::WORK) => break,
                Err(number) => observer.refused(slot, number)?,
            }
        }
        Ok(before)
    }
}
