//! Names that several coverages count by.

use model::task::MAX_DEPTH;
use model::{fault, question, End, Value};
use std::ops::RangeInclusive;

pub const DEPTHS: RangeInclusive<usize> = 0..=MAX_DEPTH;
pub const FAULTS: [u8; 10] = fault::ALL;
pub const NOT_ENDED: &str = "not ended";
/// What a register holds.
pub const KINDS: [&str; 3] = ["integer", "label", "record"];

pub fn kind(value: Value) -> &'static str {
    match value {
        Value::Int(_) => KINDS[0],
        Value::Label(_) => KINDS[1],
        Value::Record(_) => KINDS[2],
    }
}

/// Of a program that was accepted.
pub fn version(version: u16) -> String {
    format!("version {}", version)
}

/// Of a job that was accepted. Two bytes of length stand before its image.
pub fn job_version(job: &[u8]) -> String {
    version(u16::from_le_bytes([job[5], job[6]]))
}

/// A version that there is not, beside a number of blocks that there may not be.
pub const VERSION_BEFORE_COUNTS: &str = "refused 3 before 4";

pub fn is_version_before_counts(job: &[u8], number: u8) -> bool {
    number == question::VERSION && !(1..=128).contains(&job[7])
}

pub fn at_depth(what: &str, depth: usize) -> String {
    format!("{} at depth {}", what, depth)
}

/// With a name for jobs that have not ended.
pub fn end(end: Option<End>, not_ended: &str) -> String {
    match end {
        None => not_ended.to_string(),
        Some(End::Halt) => "end halt".to_string(),
        Some(End::Fault(number)) => format!("end fault {}", number),
    }
}

pub fn ends(not_ended: &str) -> Vec<String> {
    let faults = FAULTS.map(|number| Some(End::Fault(number)));
    let ends = [None, Some(End::Halt)].into_iter().chain(faults);
    ends.map(|one| end(one, not_ended)).collect()
}

pub fn refused_pick(number: u8) -> String {
    format!("pick refused {}", number)
}

/// By all questions but the last: that takes 4,294,967,295 picks.
pub fn refused_picks() -> impl Iterator<Item = String> {
    (question::SLOT..=question::RUNNING).map(refused_pick)
}
