//! Peer and model on jobs made by hand, with every budget up to their end.

use checks::assemble::{
    fork, halt, join, jralloc, jump, mov, op, Annotation, Assembly, JobInput, Operand,
};
use checks::hand::{
    by_zero, endless, f, f_with, figure_2, long, of_picks, outside, refused, two_for_ever,
};
use checks::layout::even_blocks;
use model::job::Report;
use model::opcode::ADD;
use model::{question, End, Value};
use Operand::{Int, Lab, Reg};

fn compared(job: &[u8], budget: u64) -> Result<Report, u8> {
    let expected = model::job::run(job, budget);
    assert_eq!(peer::run(job, budget), expected, "budget {}", budget);
    expected
}

#[test]
fn every_budget() {
    let jobs = [
        (f(2), End::Halt, 9, 7),
        (f(1), End::Fault(37), 2, 2),
        (f_with(outside(), by_zero()), End::Fault(33), 4, 3),
        (figure_2(2, 1, 0), End::Halt, 13, 13),
        (figure_2(3, 2, 8), End::Halt, 19, 19),
        (figure_2(4, 2, 8), End::Halt, 39, 33),
        (figure_2(4, 2, 10), End::Halt, 39, 33),
        (figure_2(4, 2, 11), End::Halt, 23, 23),
    ];
    for (input, end, work, span) in jobs {
        let job = input.bytes();
        for budget in 0..work {
            let report = compared(&job, budget).expect("the job is accepted");
            assert_eq!((report.end, report.picks), (None, budget));
        }
        for budget in [work, work + 1, u64::MAX] {
            let report = compared(&job, budget).expect("the job is accepted");
            assert_eq!((report.end, report.picks), (Some(end), work));
            assert_eq!(report.span, span);
        }
    }
}

/// The combining block forks anew: no jump is ever made, after which the budget would be looked at.
fn forks_for_ever() -> JobInput {
    const CHILD: u8 = 1;
    const DONE: u8 = 2;
    const AGAIN: u8 = 3;
    let target = Annotation::JoinTarget {
        policy: 0,
        combining: AGAIN,
        pairs: Vec::new(),
    };
    let again = [fork(1, Lab(CHILD)), join(Reg(1))];
    let mut forks = Assembly::default();
    let first = [jralloc(1, Lab(DONE)), again[0], again[1]];
    forks.block(Annotation::None, &first);
    forks.block(Annotation::None, &[join(Reg(1))]);
    forks.block(target, &[halt()]);
    forks.block(Annotation::None, &again);
    JobInput::new(forks.image(), 2, 0)
}

#[test]
fn jobs_that_never_end() {
    for input in [endless(), two_for_ever(), forks_for_ever()] {
        for budget in (0..20).chain([999_999, 1_000_000]) {
            let report = compared(&input.bytes(), budget).expect("the job is accepted");
            assert_eq!((report.end, report.picks), (None, budget));
        }
    }
}

#[test]
fn the_last_pick_of_a_large_budget() {
    for picks in [999_999, 1_000_000, 1_000_001] {
        let report = compared(&of_picks(picks).bytes(), 1_000_000).expect("the job is accepted");
        assert_eq!(report.end.is_some(), picks <= 1_000_000);
    }
}

/// A register that is set to a label and then to an integer, by copies in one block.
#[test]
fn copies_over_a_label() {
    let mut copies = Assembly::default();
    copies.block(Annotation::None, &[mov(6, Lab(1)), jump(Lab(1))]);
    let code = [
        mov(5, Reg(6)),
        mov(5, Reg(0)),
        op(ADD, 0, 0, Int(1)),
        halt(),
    ];
    copies.block(Annotation::None, &code);
    let job = JobInput::new(copies.image(), 1, 0).with_register(0, 7);
    let report = compared(&job.bytes(), 100).expect("the job is accepted");
    assert_eq!(report.registers[5], Value::Int(7));
    assert_eq!(report.registers[6], Value::Label(1));
}

#[test]
fn refusals() {
    for (number, job) in refused() {
        for budget in [0, u64::MAX] {
            assert_eq!(compared(&job, budget), Err(number));
        }
        let mut report = [0; 1];
        assert_eq!(peer::run_into(&job, 1, &mut report), Err(number));
    }
    let job = f(2).bytes();
    for length in [0, model::report::BYTES - 1, model::report::BYTES + 1] {
        let mut report = vec![0xa5; length];
        let answer = peer::run_into(&job, 1, &mut report);
        assert_eq!(answer, Err(question::BUFFER));
        assert!(report.iter().all(|&byte| byte == 0xa5));
    }
    for length in 0..job.len() {
        assert_eq!(compared(&job[..length], 1), Err(question::INPUT));
    }
}

#[test]
fn the_longest_jobs() {
    assert_eq!(compared(&long(65_535), 1), Err(question::MARK));
    let mut good = JobInput::new(even_blocks(128, 1024), 64, 0);
    good.words = vec![1; 4096];
    for budget in [0, 1, 7, 8, 1_000, 100_000] {
        assert!(compared(&good.bytes(), budget).is_ok());
    }
}

#[test]
fn every_byte_of_fs_job() {
    let job = f(2).bytes();
    for at in 0..job.len() {
        for byte in 0..=255 {
            let mut changed = job.clone();
            changed[at] = byte;
            let _ = compared(&changed, 2_000);
        }
    }
}
