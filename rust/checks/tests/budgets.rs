//! Engine and model on seeded jobs with budgets of picks, and boundaries of the budget.

use checks::assemble::JobInput;
use checks::budgets::{compare, run, BudgetCase};
use checks::hand::{by_zero, endless, f, f_with, figure_2, long, outside, refused};
use checks::numbers::number_at;
use checks::report::{FAULT, HALT, SPENT};
use checks::shares::expect_all_met;
use engine::{REPORT_BYTES, TEXT_BYTES};

const SEED: u64 = 0x6275_6467_6574;
const JOBS: u64 = 24_000;

#[test]
fn seeded_jobs() {
    expect_all_met(run(SEED, 0..JOBS), JOBS);
}

/// What the engine answers, after it was compared with the model.
fn compared(case: &BudgetCase) -> Result<(), u8> {
    if let Err(what) = compare(case, 0x0123_4567_89ab_cdef) {
        panic!("budget {}: {}", case.budget, what);
    }
    let mut report = vec![0xa5; case.report_len];
    engine::job_run(&case.job, case.budget, &mut report)
}

/// End, fault number, picks, work and span that the engine reports.
fn outcome(input: &JobInput, budget: u64) -> [u64; 5] {
    let case = BudgetCase::new(input.bytes(), budget);
    assert_eq!(compared(&case), Ok(()));
    let mut report = [0xa5; REPORT_BYTES];
    assert_eq!(engine::job_run(&case.job, budget, &mut report), Ok(()));
    [0, 1, 2, 3, 4].map(|index| number_at(&report, index))
}

#[test]
fn f_with_every_budget() {
    for budget in 0..9 {
        assert_eq!(outcome(&f(2), budget), [SPENT, 0, budget, budget, 0]);
    }
    // On the last pick, and before it.
    for budget in [9, 10, 11, 1_000_000, u64::MAX - 1, u64::MAX] {
        assert_eq!(outcome(&f(2), budget), [HALT, 0, 9, 9, 7]);
    }
}

#[test]
fn faults_on_the_last_pick_and_before_it() {
    let two_faults = f_with(outside(), by_zero());
    for budget in 0..4 {
        assert_eq!(outcome(&two_faults, budget), [SPENT, 0, budget, budget, 0]);
    }
    for budget in [4, 5, u64::MAX] {
        assert_eq!(outcome(&two_faults, budget), [FAULT, 33, 4, 4, 3]);
    }
    assert_eq!(outcome(&f(1), 1), [SPENT, 0, 1, 1, 0]);
    assert_eq!(outcome(&f(1), 2), [FAULT, 37, 2, 2, 2]);
}

#[test]
fn figure_2_in_its_settings() {
    let settings = [
        (figure_2(2, 1, 0), 13, 13),
        (figure_2(3, 2, 8), 19, 19),
        (figure_2(4, 2, 8), 39, 33),
        // The beat comes on the interval: the counter stands at 10 when the rest can be divided.
        (figure_2(4, 2, 10), 39, 33),
        (figure_2(4, 2, 11), 23, 23),
    ];
    for (input, work, span) in settings {
        assert_eq!(outcome(&input, 1_000_000), [HALT, 0, work, work, span]);
        assert_eq!(outcome(&input, work - 1), [SPENT, 0, work - 1, work - 1, 0]);
    }
}

#[test]
fn an_endless_job_is_spent_after_exactly_its_budget() {
    for budget in [0, 1, 2, 999_999, 1_000_000, 1_000_001, 5_000_000] {
        assert_eq!(outcome(&endless(), budget), [SPENT, 0, budget, budget, 0]);
    }
}

#[test]
fn refusals_come_before_the_budget_and_the_reports_length() {
    for (number, job) in refused() {
        for budget in [0, 1_000_000, u64::MAX] {
            for report_len in [0, REPORT_BYTES - 1, REPORT_BYTES, REPORT_BYTES + 1] {
                let mut case = BudgetCase::new(job.clone(), budget);
                case.report_len = report_len;
                assert_eq!(compared(&case), Err(number));
            }
        }
    }
}

#[test]
fn a_report_of_another_length_is_refused_by_15() {
    for report_len in (0..2 * REPORT_BYTES).chain([REPORT_BYTES + 256, REPORT_BYTES + 65_536]) {
        let mut case = BudgetCase::new(f(2).bytes(), 1_000_000);
        case.report_len = report_len;
        let expected = if report_len == REPORT_BYTES {
            Ok(())
        } else {
            Err(15)
        };
        assert_eq!(compared(&case), expected);
    }
}

#[test]
fn a_text_of_another_length_is_left_as_it_was() {
    let lengths = (0..40).chain(TEXT_BYTES - 2..TEXT_BYTES + 3);
    for text_len in lengths.chain([TEXT_BYTES + 256, TEXT_BYTES + 65_536]) {
        for (_, job) in refused().into_iter().chain([(0, f(2).bytes())]) {
            let mut case = BudgetCase::new(job, 1_000_000);
            case.text_len = text_len;
            let _ = compared(&case);
        }
    }
}

#[test]
fn the_longest_jobs() {
    let mut job = long(65_535);
    assert_eq!(job.len(), 589_950);
    assert_eq!(compared(&BudgetCase::new(job.clone(), 1)), Err(2));
    job.push(0);
    assert_eq!(compared(&BudgetCase::new(job, 1)), Err(10));

    let mut good = JobInput::new(checks::layout::even_blocks(128, 1024), 64, 0);
    good.words = vec![1; 4096];
    assert_eq!(good.bytes().len(), 46_479);
    assert_eq!(compared(&BudgetCase::new(good.bytes(), 1000)), Ok(()));
}

#[test]
fn every_byte_of_fs_job() {
    let job = f(2).bytes();
    for at in 0..job.len() {
        for byte in (0..=255).step_by(5).chain([1, 2, 3, 4, 7, 8, 64, 128]) {
            let mut changed = job.clone();
            changed[at] = byte;
            let _ = compared(&BudgetCase::new(changed, 2_000));
        }
    }
}
