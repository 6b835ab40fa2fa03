//! A second implementation of the block engine, written from documents 01 and 02 alone, for the
//! shape test from docs/machine.md, and for the bytes of programs, states and reports from
//! docs/image.md and docs/api.md.
//!
//! The tests compare the proved engine with it, and the benchmark runs it beside the engine.

pub mod cells;
pub mod fault;
mod image;
pub mod job;
mod machine;
pub mod numbers;
pub mod opcode;
pub mod plain;
pub mod question;
pub mod report;
#[cfg(test)]
mod sample;
mod shape;
mod stack;
pub mod state;
pub mod steps;
pub mod task;
pub mod text;

pub use image::{
    block_bytes, check, last_opcode, most_pairs, read, rewrite, write, write_into, Block,
    Instruction, Program, HEADER_BYTES, INSTRUCTION_BYTES, MARK, MAX_BLOCKS, MAX_INSTRUCTIONS,
    MAX_PAIRS, VERSIONS, VERSION_1, VERSION_2,
};
pub use job::Job;
pub use machine::{
    Answer, Call, Dispatched, End, Machine, Slot, Status, MAX_LANES, MAX_PLACES, MAX_WORDS,
    WORK_LIMIT,
};
pub use stack::{Stack, STACK};
pub use task::{Record, Registers, Task, Value, REGISTERS};
