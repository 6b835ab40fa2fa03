//! What the programs of the assembler share: command lines, files, and the options of a job.

mod arguments;
mod changes;
mod failure;
mod files;

pub use arguments::{number, wrong, Arguments, Grammar, Known, Request};
pub use changes::{check_output, words_of, Changes};
pub use failure::{at_fault, finish, Failure};
pub use files::{complain, Place};
