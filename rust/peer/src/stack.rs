//! A task's stack.

use crate::task::{Held, Kind};
use model::STACK;

/// Values and their kinds lie apart: so each is found by its place alone, and none of the processor's
/// registers is kept for where they begin.
#[derive(Clone, Copy)]
pub struct Stack {
    values: [i64; STACK],
    kinds: [Kind; STACK],
    height: usize,
}

impl Stack {
    pub const EMPTY: Stack = Stack {
        values: [0; STACK],
        kinds: [Kind::INTEGER; STACK],
        height: 0,
    };

    /// Whether it was done: the stack was not full.
    #[inline(always)]
    pub fn push(&mut self, held: Held) -> bool {
        // Read once: what is stored might be the height, for all that the compiler knows.
        let height = self.height;
        if height >= STACK {
            return false;
        }
        self.values[height] = held.value;
        self.kinds[height] = held.kind;
        self.height = height + 1;
        true
    }

    #[inline(always)]
    pub fn pop(&mut self) -> Option<Held> {
        let last = self.height.wrapping_sub(1);
        if last >= STACK {
            return None;
        }
        self.height = last;
        Some(Held {
            value: self.values[last],
            kind: self.kinds[last],
        })
    }

    /// Its values are left where they are.
    #[inline(always)]
    pub fn clear(&mut self) {
        self.height = 0;
    }
}
