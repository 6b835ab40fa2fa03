//! What the run program prints, line by line. The digits are written here: by `format!` a text took
//! three times as long, and the benchmark's peer is to be at its best.

use crate::job::Report;
use crate::machine::End;
use crate::task::Value;

/// Appends what is printed where a run comes to this.
pub fn write(outcome: &Result<Report, u8>, out: &mut String) {
    match outcome {
        Err(refusal) => write_line("refused ", (*refusal).into(), out),
        Ok(report) => write_report(report, out),
    }
}

fn write_report(report: &Report, out: &mut String) {
    match report.end {
        None => {
            out.push_str("end spent\n");
            return write_line("work ", report.work.into(), out);
        }
        Some(End::Halt) => out.push_str("end halt\n"),
        Some(End::Fault(number)) => write_line("end fault ", number.into(), out),
    }
    write_line("work ", report.work.into(), out);
    write_line("span ", report.span.into(), out);
    for (number, value) in (0..).zip(report.registers) {
        out.push('r');
        write_number(number, out);
        write_value(value, out);
        out.push('\n');
    }
}

fn write_value(value: Value, out: &mut String) {
    match value {
        Value::Int(integer) => {
            out.push_str(" int ");
            if integer < 0 {
                out.push('-');
            }
            write_number(integer.unsigned_abs(), out);
        }
        Value::Label(label) => {
            out.push_str(" lab ");
            write_number(label.into(), out);
        }
        Value::Record(record) => {
            out.push_str(" rec ");
            write_number(record.continuation.into(), out);
            out.push(' ');
            write_number(record.depth.into(), out);
        }
    }
}

fn write_line(words: &str, number: u64, out: &mut String) {
    out.push_str(words);
    write_number(number, out);
    out.push('\n');
}

fn write_number(number: u64, out: &mut String) {
    // The largest number has 20 digits.
    let mut digits = [0; 20];
    let mut first = digits.len();
    let mut rest = number;
    loop {
        first -= 1;
        digits[first] = b'0' + (rest % 10) as u8;
        rest /= 10;
        if rest == 0 {
            break;
        }
    }
    out.extend(digits[first..].iter().map(|&digit| char::from(digit)));
}

#[cfg(test)]
mod tests;
