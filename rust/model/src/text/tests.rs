//! The lines of every kind of outcome, and numbers beside `format!`'s.

use super::*;
use crate::task::{Record, ZEROS};

fn text(outcome: &Result<Report, u8>) -> String {
    let mut text = String::from("before\n");
    write(outcome, &mut text);
    text.strip_prefix("before\n").unwrap().to_string()
}

fn ended(end: Option<End>) -> Report {
    Report {
        end,
        picks: 12,
        work: 12,
        span: 7,
        registers: ZEROS,
    }
}

#[test]
fn a_line_for_each_thing() {
    assert_eq!(text(&Err(10)), "refused 10\n");
    assert_eq!(text(&Ok(ended(None))), "end spent\nwork 12\n");
    let registers: String = (0..16).map(|r| format!("r{} int 0\n", r)).collect();
    for (end, words) in [(End::Halt, "halt"), (End::Fault(37), "fault 37")] {
        let expected = format!("end {}\nwork 12\nspan 7\n{}", words, registers);
        assert_eq!(text(&Ok(ended(Some(end)))), expected);
    }
}

#[test]
fn values() {
    let record = Record {
        continuation: 127,
        depth: u32::MAX,
    };
    let cases = [
        (Value::Label(0), " lab 0"),
        (Value::Label(127), " lab 127"),
        (Value::Record(record), " rec 127 4294967295"),
    ];
    for (value, expected) in cases {
        let mut found = String::new();
        write_value(value, &mut found);
        assert_eq!(found, expected);
    }
}

#[test]
fn integers_in_decimal() {
    let powers = (0..19).map(|digits| 10i64.pow(digits));
    let around = powers.flat_map(|power| [power - 1, power, power + 1]);
    for integer in around.chain([i64::MAX - 1, i64::MAX]) {
        for integer in [integer, -integer, -integer - 1] {
            let mut found = String::new();
            write_value(Value::Int(integer), &mut found);
            assert_eq!(found, format!(" int {}", integer));
        }
    }
}
