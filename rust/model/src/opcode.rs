//! The opcodes.

pub const MOVE: u8 = 1;
pub const ADD: u8 = 2;
pub const SUBTRACT: u8 = 3;
pub const MULTIPLY: u8 = 4;
pub const DIVIDE: u8 = 5;
pub const REMAINDER: u8 = 6;
pub const LESS: u8 = 7;
pub const EQUAL: u8 = 8;
pub const WORD: u8 = 9;
pub const IF_JUMP: u8 = 10;
pub const JRALLOC: u8 = 11;
pub const FORK: u8 = 12;
pub const JUMP: u8 = 13;
pub const HALT: u8 = 14;
pub const JOIN: u8 = 15;
/// Of version 2, like the next.
pub const PUSH: u8 = 16;
pub const POP: u8 = 17;
