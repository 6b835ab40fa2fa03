//! A report's bytes, laid out as in docs/api.md.

use crate::job::Report;
use crate::machine::End;
use crate::numbers;
use crate::task::{Value, REGISTERS};

/// Numbers before the registers': end, fault number, picks, work and span.
pub const REGISTERS_AT: usize = 5;
/// Of a register, or of an entry of a stack.
pub const VALUE_NUMBERS: usize = 3;
pub const REGISTER_NUMBERS: usize = VALUE_NUMBERS * REGISTERS;
pub const NUMBERS: usize = REGISTERS_AT + REGISTER_NUMBERS;

/// Length of a report.
pub const BYTES: usize = numbers::BYTES * NUMBERS;
/// Length of a dispatcher's: the rounds come last.
pub const DISPATCH_BYTES: usize = BYTES + numbers::BYTES;

/// Ends.
pub const SPENT: u64 = 0;
pub const HALT: u64 = 1;
pub const FAULT: u64 = 2;

/// Writes a report over `out`, which has `BYTES`.
pub fn write(report: &Report, out: &mut [u8]) {
    let (end, fault) = match report.end {
        None => (SPENT, 0),
        Some(End::Halt) => (HALT, 0),
        Some(End::Fault(number)) => (FAULT, number.into()),
    };
    let numbers = [
        end,
        fault,
        report.picks,
        report.work.into(),
        report.span.into(),
    ];
    let (front, registers) = out.split_at_mut(numbers::BYTES * REGISTERS_AT);
    numbers::write(numbers, front);
    write_values(&report.registers, registers);
}

/// Writes a dispatcher's report over `out`, which has `DISPATCH_BYTES`.
pub fn write_dispatched(report: &Report, rounds: u64, out: &mut [u8]) {
    let (front, last) = out.split_at_mut(BYTES);
    write(report, front);
    numbers::write([rounds], last);
}

/// Kind, then the integer, label or continuation, then the record's depth or 0.
pub(crate) fn write_values(values: &[Value], out: &mut [u8]) {
    let numbers = values.iter().flat_map(|value| match *value {
        Value::Int(integer) => [0, integer as u64, 0],
        Value::Label(label) => [1, label.into(), 0],
        Value::Record(record) => [2, record.continuation.into(), record.depth.into()],
    });
    numbers::write(numbers, out);
}

pub fn bytes(report: &Report) -> Vec<u8> {
    let mut bytes = vec![0; BYTES];
    write(report, &mut bytes);
    bytes
}

#[cfg(test)]
mod tests;
