//! Bytes and text.

use super::*;
use crate::sample::{countdown, f, instruction, program, Operand, HALT, PLAIN};
use crate::{opcode, write, Value};

fn bytes(image: &[u8], places: u8, interval: u16, words: &[i64]) -> Vec<u8> {
    let mut bytes = (image.len() as u16).to_le_bytes().to_vec();
    bytes.extend(image);
    bytes.push(places);
    bytes.extend(interval.to_le_bytes());
    for register in 0..16i64 {
        bytes.extend((-register).to_le_bytes());
    }
    bytes.extend((words.len() as u16).to_le_bytes());
    bytes.extend(words.iter().flat_map(|word| word.to_le_bytes()));
    bytes
}

#[test]
fn fields_are_little_endian_and_in_this_order() {
    let image = write(&f()).unwrap();
    let job = Job::parse(&bytes(&image, 64, 0x1234, &[5, i64::MIN])).unwrap();
    assert_eq!(job.program, f());
    assert_eq!((job.places, job.interval), (64, 0x1234));
    assert_eq!(job.registers[..3], [0, -1, -2]);
    assert_eq!(job.registers[15], -15);
    assert_eq!(job.words, [5, i64::MIN]);
}

#[test]
fn the_input_ends_exactly_after_its_last_word() {
    // Question 10 is put before all else, so the image does not matter.
    for image in [write(&f()).unwrap(), vec![0; 3], Vec::new()] {
        let good = bytes(&image, 3, 7, &[1, 2]);
        for len in 0..good.len() {
            assert_eq!(report(&good[..len]), "refused 10\n");
        }
        assert_ne!(report(&good), "refused 10\n");
        let mut longer = good;
        longer.push(0);
        assert_eq!(report(&longer), "refused 10\n");
        longer.extend([0; 7]);
        assert_eq!(report(&longer), "refused 10\n");
    }
    assert_eq!(report(&[]), "refused 10\n");
}

#[test]
fn the_readers_questions_come_before_starts() {
    let good = write(&f()).unwrap();
    let mut bad = good.clone();
    bad[8] = 1;
    let many = [0; 4097];
    assert_eq!(report(&bytes(&[], 3, 7, &many)), "refused 1\n");
    assert_eq!(report(&bytes(&bad, 3, 7, &many)), "refused 6\n");
    assert_eq!(report(&bytes(&good, 3, 7, &many)), "refused 11\n");
    assert_eq!(report(&bytes(&good, 4, 7, &many)), "refused 12\n");
    assert_eq!(report(&bytes(&good, 4, 8, &many)), "refused 14\n");
}

#[test]
fn spent_prints_the_work_alone() {
    let endless = program(&[(PLAIN, &[instruction(opcode::JUMP, 0, 0, Operand::Lab(0))])]);
    let image = write(&endless).unwrap();
    let expected = "end spent\nwork 1000000\n";
    assert_eq!(report(&bytes(&image, 1, 0, &[])), expected);
}

#[test]
fn the_budget_is_a_million() {
    let mut input = bytes(&write(&countdown()).unwrap(), 1, 0, &[]);
    let r0 = input.len() - 2 - 16 * 8;
    // Three instructions a round and two more, so two short of the budget and one beyond it.
    input[r0..r0 + 8].copy_from_slice(&333_332i64.to_le_bytes());
    assert!(report(&input).starts_with("end halt\nwork 999998\nspan 999998\n"));
    input[r0..r0 + 8].copy_from_slice(&333_333i64.to_le_bytes());
    assert_eq!(report(&input), "end spent\nwork 1000000\n");
}

#[test]
fn values_print_as_int_lab_or_rec() {
    let target = crate::Block {
        annotation: 2,
        ..PLAIN
    };
    let code = [
        instruction(opcode::MOVE, 0, 0, Operand::Lab(1)),
        instruction(opcode::JRALLOC, 1, 0, Operand::Lab(1)),
        instruction(opcode::MOVE, 2, 0, Operand::Int(i64::MIN)),
        HALT,
    ];
    let image = write(&program(&[(PLAIN, &code), (target, &[HALT])])).unwrap();
    let text = report(&bytes(&image, 1, 0, &[]));
    let lines: Vec<&str> = text.lines().collect();
    assert_eq!(lines.len(), 19);
    let start = [
        "end halt",
        "work 4",
        "span 4",
        "r0 lab 1",
        "r1 rec 1 0",
        "r2 int -9223372036854775808",
        "r3 int -3",
    ];
    assert_eq!(lines[..7], start);
}

#[test]
fn a_report_is_what_the_run_comes_to() {
    let mut input = bytes(&write(&countdown()).unwrap(), 1, 0, &[]);
    let r0 = input.len() - 2 - 16 * 8;
    input[r0] = 3;
    for budget in 0..=10 {
        let spent = Report {
            end: None,
            picks: budget,
            work: budget as u32,
            span: 0,
            registers: ZEROS,
        };
        assert_eq!(run(&input, budget), Ok(spent));
        let expected = format!("end spent\nwork {}\n", budget);
        assert_eq!(text(&input, budget), expected);
    }
    for budget in [11, 12, BUDGET, u64::MAX] {
        let report = run(&input, budget).unwrap();
        assert_eq!((report.end, report.picks), (Some(End::Halt), 11));
        assert_eq!((report.work, report.span), (11, 11));
        assert_eq!(report.registers[0], Value::Int(0));
        assert_eq!(report.registers[15], Value::Int(-15));
        assert_eq!(text(&input, budget), text_of(&Ok(report)));
    }
    input.pop();
    assert_eq!(run(&input, 0), Err(10));
    assert_eq!(text(&input, 0), "refused 10\n");
}

#[test]
fn a_dispatch_is_what_the_rounds_come_to() {
    let input = bytes(&write(&f()).unwrap(), 2, 0, &[]);
    for (lanes, rounds) in [(1, 9), (2, 7), (3, 7), (8, 7)] {
        let (report, begun) = dispatch(&input, lanes, u64::MAX).unwrap();
        assert_eq!(begun, rounds);
        assert_eq!(Ok(report), run(&input, BUDGET));
        let (report, begun) = dispatch(&input, lanes, rounds - 1).unwrap();
        assert_eq!((begun, report.end, report.work), (rounds - 1, None, 8));
        assert_eq!((report.span, report.registers), (0, ZEROS));
    }
    let (report, begun) = dispatch(&input, 2, 0).unwrap();
    assert_eq!((begun, report.end, report.work), (0, None, 0));
}

#[test]
fn a_dispatch_asks_for_the_lanes_last_and_the_reports_length_before_them() {
    let good = write(&f()).unwrap();
    let many = [0; 4097];
    let answer = |job: &[u8], lanes, length| {
        let mut report = vec![0xa5; length];
        let answer = dispatch_into(job, lanes, 1, &mut report);
        if answer.is_err() {
            assert!(report.iter().all(|&byte| byte == 0xa5));
        }
        answer
    };
    let accepted = bytes(&good, 4, 8, &[]);
    for lanes in [0, 9, u64::MAX] {
        for length in [0, 424, 431, 432, 433] {
            assert_eq!(answer(&[], lanes, length), Err(10));
            assert_eq!(answer(&bytes(&[], 3, 7, &many), lanes, length), Err(1));
            assert_eq!(answer(&bytes(&good, 3, 7, &many), lanes, length), Err(11));
            assert_eq!(answer(&bytes(&good, 4, 7, &many), lanes, length), Err(12));
            assert_eq!(answer(&bytes(&good, 4, 8, &many), lanes, length), Err(14));
            let expected = if length == 432 { 41 } else { 15 };
            assert_eq!(answer(&accepted, lanes, length), Err(expected));
        }
        assert_eq!(dispatch(&bytes(&good, 4, 8, &many), lanes, 1), Err(14));
        assert_eq!(dispatch(&accepted, lanes, 1), Err(41));
    }
    assert_eq!(answer(&accepted, 1, 433), Err(15));
    assert_eq!(answer(&accepted, 1, 432), Ok(()));
}
