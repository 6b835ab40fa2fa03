//! Refusals and faults in words.

use model::{fault, question};
use std::fmt;

/// The number of the first question that was answered with no.
#[derive(Clone, Copy, Debug, PartialEq, Eq)]
pub struct Refusal(pub u8);

impl fmt::Display for Refusal {
    fn fmt(&self, f: &mut fmt::Formatter) -> fmt::Result {
        let words = match self.0 {
            question::HEADER => "the image has fewer than 8 bytes",
            question::MARK => "the image does not begin with the letters TPB",
            question::VERSION => "the image's version is not 1 or 2",
            question::COUNTS => "there are not 1 to 128 blocks and 1 to 1024 instructions",
            question::LENGTH => "the image's length does not fit its blocks and instructions",
            question::BLOCK_START => {
                "block 0 does not start at instruction 0, or a later block not after the one \
                 before it, or one starts beyond the last instruction"
            }
            question::ANNOTATION => "a block's annotation is not as its version lays it out",
            question::FIELDS => {
                "an instruction's opcode, registers, label or zeros are not as its version lays \
                 them out"
            }
            question::LAST_IN_BLOCK => {
                "a jump, halt or join is not the last of its block, or a block ends with none"
            }
            question::INPUT => "the job does not end exactly after its last word",
            question::PLACES => "the places are not 1, 2, 4, 8, 16, 32 or 64",
            question::INTERVAL => "the interval is not 0 or 8 to 65535",
            question::WORDS => "there are more than 4096 words",
            _ => "a question without words",
        };
        write!(f, "refused {}: {}", self.0, words)
    }
}

impl std::error::Error for Refusal {}

/// The number of the first of an instruction's questions that was answered with no.
#[derive(Clone, Copy, Debug, PartialEq, Eq)]
pub struct Fault(pub u8);

impl fmt::Display for Fault {
    fn fmt(&self, f: &mut fmt::Formatter) -> fmt::Result {
        let words = match self.0 {
            fault::INTEGERS => "an operand, an index or the register of if-jump is not an integer",
            fault::DIVISOR => "the divisor is 0",
            fault::INDEX => "the index is outside the call record",
            fault::RECORD => "the operand of fork or join is no join record that fits",
            fault::TARGET => "the target of a jump or fork is not a label",
            fault::JOIN_TARGET => "the operand of jralloc is not the label of a join target",
            fault::PLACES => "the task has not two places to fork",
            fault::OPEN_FORK => "a fork is open at halt",
            fault::FULL => "the task's stack has no room for the value of a push",
            fault::EMPTY => "there is no value on the task's stack, for a pop",
            _ => "a question without words",
        };
        write!(f, "fault {}: {}", self.0, words)
    }
}
