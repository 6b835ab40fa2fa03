//! Which registers a block needs integers in: those that it reads or sets as integers.
//!
//! When all of them hold integers as the block is entered, they do so to its end, as long as the
//! block sets none of them to anything else. Then neither its reads need ask, nor its results be
//! marked as integers. A block that sets such a register otherwise is always gone through with care;
//! one that pops into it, from there on if what is popped is no integer.

use crate::op::{Op, OpCode};
use crate::rows::Row;

/// No task has integers throughout when this is asked for: the bit beyond the registers'.
pub const CARE: u32 = 1 << 16;

/// What was seen of a block's operations so far.
#[derive(Default)]
pub struct Needs {
    /// Read or set as integers.
    pub integers: u32,
    /// Set to labels or records.
    pub others: u32,
    /// Whether values of any kind are copied, pushed or popped, which is left to the end.
    pub moves: bool,
}

impl Needs {
    /// Without a branch: the opcodes of a program follow no pattern that could be foreseen.
    #[inline(always)]
    pub fn add(&mut self, row: &Row, op: &Op) {
        self.integers |= op.r.bit() & row.r | op.s.bit() & row.s | op.v.bit() & row.v;
        self.others |= op.r.bit() & row.other;
        self.moves |= row.is_move;
    }

    /// The registers needed, with `CARE` where that is not enough. The block's copies, pushes and pops
    /// are decoded as ones of anything so far; those of integers become so.
    pub fn settled(mut self, block: &mut [Op]) -> u32 {
        if self.moves {
            self.settle_moves(block);
        }
        if self.integers & self.others == 0 {
            self.integers
        } else {
            self.integers | CARE
        }
    }

    fn settle_moves(&mut self, block: &mut [Op]) {
        for op in block {
            match op.code {
                OpCode::CopyAny => {
                    let both = op.r.bit() | op.v.bit();
                    // Of an integer most likely, if one of the two is used as one.
                    if self.integers & both != 0 {
                        self.integers |= both;
                        op.code = OpCode::Copy;
                    } else {
                        self.others |= op.r.bit();
                    }
                }
                OpCode::PushAny if self.integers & op.v.bit() != 0 => op.code = OpCode::Push,
                OpCode::PopAny if self.integers & op.r.bit() != 0 => op.code = OpCode::Pop,
                OpCode::PopAny => self.others |= op.r.bit(),
                _ => {}
            }
        }
    }
}
