//! The numbers of the faults inside a task. A fault is the number of the first of the
//! instruction's questions that is answered with no.

use crate::image::VERSION_2;

/// Both operands of opcodes 2 to 8, index and if-jump register integers?
pub const INTEGERS: u8 = 31;
/// Divisor not 0?
pub const DIVISOR: u8 = 32;
/// Index inside the call record?
pub const INDEX: u8 = 33;
/// Jump or fork target a label?
pub const TARGET: u8 = 34;
/// jralloc operand a label of a join target?
pub const JOIN_TARGET: u8 = 35;
/// fork or join operand a record that fits?
pub const RECORD: u8 = 36;
/// Two places to fork?
pub const PLACES: u8 = 37;
/// No open fork at halt?
pub const OPEN_FORK: u8 = 38;
/// A place left on the stack, for a push?
pub const FULL: u8 = 42;
/// A value on the stack, for a pop?
pub const EMPTY: u8 = 43;

/// Those of version 1 first.
pub const ALL: [u8; 10] = [
    INTEGERS,
    DIVISOR,
    INDEX,
    TARGET,
    JOIN_TARGET,
    RECORD,
    PLACES,
    OPEN_FORK,
    FULL,
    EMPTY,
];

/// Those that a program of this version can come to.
pub fn of(version: u16) -> &'static [u8] {
    if version == VERSION_2 {
        &ALL
    } else {
        &ALL[..8]
    }
}
