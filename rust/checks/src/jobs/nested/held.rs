//! Pushes and pops among the statements.

use super::{Nested, Scene, FIRST_RECORD};
use crate::assemble::{pop, push, Operand};
use crate::jobs::integer;
use crate::jobs::mishap::SCRATCH;
use crate::layout::InstructionRecord;
use model::STACK;
use Operand::{Int, Lab, Reg};

/// Two less than there is room for: a combining block pushes once more.
const HIGHEST: usize = STACK - 2;

/// What is known of a stack where the code stands: how much it holds, and which of its values are
/// certainly integers, the lowest in bit 0.
#[derive(Clone, Copy)]
pub(super) struct Held {
    pub(super) height: usize,
    integers: u32,
}

impl Held {
    pub(super) const NOTHING: Held = Held {
        height: 0,
        integers: 0,
    };

    fn with(self, is_integer: bool) -> Self {
        let bit = 1 << self.height;
        Held {
            height: self.height + 1,
            integers: if is_integer {
                self.integers | bit
            } else {
                self.integers & !bit
            },
        }
    }

    fn without_last(self) -> (Self, bool) {
        let height = self.height - 1;
        let is_integer = self.integers >> height & 1 == 1;
        (Held { height, ..self }, is_integer)
    }
}

impl Nested<'_> {
    /// A pop of what is above the scene's floor, or a push, sometimes of several values.
    pub(super) fn push_or_pop(&mut self, code: &mut Vec<InstructionRecord>, scene: Scene) -> Held {
        let mut held = scene.held;
        let floor = scene.floor.unwrap_or(0);
        if held.height > floor && self.random.one_in(2) {
            let (rest, is_integer) = held.without_last();
            // r0 to r7 hold integers alone.
            let r = if is_integer && !self.random.one_in(4) {
                self.data()
            } else {
                SCRATCH
            };
            code.push(pop(r));
            return rest;
        }
        for _ in 0..self.random.pick(&[1, 1, 1, 4]) {
            if held.height < HIGHEST {
                let (v, is_integer) = self.pushed();
                code.push(push(v));
                held = held.with(is_integer);
            }
        }
        held
    }

    /// Any value, and whether it is certainly an integer.
    fn pushed(&mut self) -> (Operand, bool) {
        match self.random.below(6) {
            0 => (Lab(self.random.below(3) as u8), false),
            1 => {
                let record = self.random.between(FIRST_RECORD.into(), SCRATCH.into());
                (Reg(record as u8), false)
            }
            2 => (Int(integer(self.random)), true),
            _ => (Reg(self.data()), true),
        }
    }
}
