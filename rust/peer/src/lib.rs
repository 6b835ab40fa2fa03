//! The benchmark's peer: a job's run from its bytes to its report, as fast as safe Rust has it
//! without machine code of its own. The model, `rust/model`, is for comparing results, and goes from
//! pick to pick as document 01 tells them; this crate goes for time alone, and the tests hold its
//! answers to the model's.
//!
//! - The program is decoded once, into operations with the kinds of their operands folded in. What
//!   can only fault is decoded to the fault.
//! - A job's end, work, span and registers do not depend on the order of its picks, so it is
//!   evaluated depth first, in the plain evaluation's order: a fork's parent side, its child's, and
//!   their join. A run that is spent reports no more than its work, which is the budget.
//! - Nothing is counted for each instruction. Work, span and counter advance together, by a block's
//!   instructions where it is left, so one number stands for the three of them. The budget is looked
//!   at there too: a run may be some instructions ahead when it is spent, and nobody sees them.
//! - Whether registers hold integers is asked once for each block, and for each instruction only
//!   where that does not settle it.
//! - A stack is a part of its task, and of those that a job can have open at once each has its own: a
//!   fork and a join leave the values on them alone.

#![forbid(unsafe_code)]

mod decode;
mod evaluate;
mod job;
mod needs;
mod op;
mod rows;
mod run;
mod stack;
mod task;

use model::job::Report;
use model::question;

/// Runs a job from a fresh start. The questions put to it: 10; the reader's; start's own.
pub fn run(input: &[u8], budget: u64) -> Result<Report, u8> {
    let job = job::Job::read(input)?;
    let code = decode::code(job.image, job.words);
    Ok(evaluate::evaluate(&job, &code, budget))
}

/// The same, with the report's bytes written over `report`, whose length is asked for last. A
/// refusal leaves it as it was.
pub fn run_into(input: &[u8], budget: u64, report: &mut [u8]) -> Result<(), u8> {
    let job = job::Job::read(input)?;
    if report.len() != model::report::BYTES {
        return Err(question::BUFFER);
    }
    let code = decode::code(job.image, job.words);
    model::report::write(&evaluate::evaluate(&job, &code, budget), report);
    Ok(())
}
