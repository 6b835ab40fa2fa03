//! Where the values on the stacks of an order's tasks were pushed, kept beside the machine.

use model::MAX_PLACES;

/// Of a popped value: where its push stands to the forks of its task.
#[derive(Clone, Copy, Debug, PartialEq, Eq)]
pub enum Origin {
    SameDepth,
    /// The fork is still open.
    OutsideFork,
    /// There was a fork since, and it is joined.
    BeforeJoin,
}

/// A value on a stack: the depth of its push, and the greatest that its task had since.
#[derive(Clone, Copy)]
struct Pushed {
    depth: usize,
    deepest: usize,
}

#[derive(Clone, Default)]
struct Side {
    pushed: Vec<Pushed>,
    /// The register that was popped last.
    popped: Option<u8>,
}

/// By slot.
pub struct Shadow {
    sides: Vec<Side>,
}

impl Default for Shadow {
    fn default() -> Self {
        Shadow {
            sides: vec![Side::default(); MAX_PLACES as usize],
        }
    }
}

impl Shadow {
    pub fn push(&mut self, slot: usize, depth: usize) {
        let deepest = depth;
        self.sides[slot].pushed.push(Pushed { depth, deepest });
    }

    /// The last value goes to this register.
    pub fn pop(&mut self, slot: usize, depth: usize, register: u8) -> Origin {
        let side = &mut self.sides[slot];
        side.popped = Some(register);
        match side.pushed.pop().expect("the machine had a value") {
            pushed if pushed.depth < depth => Origin::OutsideFork,
            pushed if pushed.deepest > depth => Origin::BeforeJoin,
            _ => Origin::SameDepth,
        }
    }

    pub fn last_popped(&self, slot: usize) -> Option<u8> {
        self.sides[slot].popped
    }

    /// A task at this depth forks, and the child sits `width` slots further on.
    pub fn fork(&mut self, slot: usize, width: usize, depth: usize) {
        self.sides[slot + width] = Side::default();
        for pushed in &mut self.sides[slot].pushed {
            pushed.deepest = pushed.deepest.max(depth + 1);
        }
    }
}

#[cfg(test)]
mod tests {
    use super::*;

    #[test]
    fn across_a_fork() {
        let mut shadow = Shadow::default();
        for depth in [0, 0, 0] {
            shadow.push(4, depth);
        }
        assert_eq!(shadow.pop(4, 0, 9), Origin::SameDepth);
        assert_eq!(shadow.last_popped(4), Some(9));
        shadow.push(6, 3);
        shadow.fork(4, 2, 0);
        // The child has none of them.
        assert_eq!(
            (shadow.last_popped(6), shadow.sides[6].pushed.len()),
            (None, 0)
        );
        shadow.push(4, 1);
        assert_eq!(shadow.pop(4, 1, 3), Origin::SameDepth);
        assert_eq!(shadow.pop(4, 1, 3), Origin::OutsideFork);
        assert_eq!(shadow.pop(4, 0, 3), Origin::BeforeJoin);
    }
}
