//! Engine and model on seeded jobs in rounds, and boundaries of the lanes, the rounds and the report.

use checks::assemble::JobInput;
use checks::dispatch::{compare, run, Rounds, WRONG_LANES};
use checks::hand::{
    by_zero, endless, f, f_with, figure_2, long, of_picks, outside, refused, two_for_ever,
};
use checks::numbers::number_at;
use checks::report::{FAULT, HALT, ROUNDS, SPENT};
use checks::shares::expect_all_met;
use engine::DISPATCH_BYTES;

const SEED: u64 = 0x6469_7370_6174_6368;
const JOBS: u64 = 8_000;

#[test]
fn seeded_jobs() {
    expect_all_met(run(SEED, 0..JOBS), JOBS);
}

/// What the engine answers, after it was compared with the model.
fn compared(job: &[u8], rounds: Rounds) -> Result<(), u8> {
    match compare(job, rounds, 0x0123_4567_89ab_cdef) {
        Ok(walked) => walked.map(|_| ()),
        Err(what) => panic!("{:?}: {}", rounds, what),
    }
}

/// End, fault number, picks, work, span and rounds that the engine reports.
fn outcome(input: &JobInput, lanes: u64, budget: u64) -> [u64; 6] {
    let job = input.bytes();
    assert_eq!(compared(&job, Rounds::new(lanes, budget)), Ok(()));
    let mut report = [0xa5; DISPATCH_BYTES];
    let answer = engine::job_dispatch(&job, lanes, budget, &mut report);
    assert_eq!(answer, Ok(()));
    [0, 1, 2, 3, 4, ROUNDS].map(|index| number_at(&report, index))
}

#[test]
fn f_takes_7_rounds_with_two_lanes() {
    // Picks after so many rounds.
    let picks = [0, 1, 2, 4, 6, 7, 8];
    for lanes in 2..=8 {
        for (budget, picks) in (0..).zip(picks) {
            let expected = [SPENT, 0, picks, picks, 0, budget];
            assert_eq!(outcome(&f(2), lanes, budget), expected);
        }
        for budget in [7, 8, 1_000_000, u64::MAX - 1, u64::MAX] {
            assert_eq!(outcome(&f(2), lanes, budget), [HALT, 0, 9, 9, 7, 7]);
        }
    }
}

#[test]
fn f_takes_a_round_for_each_pick_with_one_lane() {
    for budget in 0..9 {
        let expected = [SPENT, 0, budget, budget, 0, budget];
        assert_eq!(outcome(&f(2), 1, budget), expected);
    }
    for budget in [9, 10, u64::MAX] {
        assert_eq!(outcome(&f(2), 1, budget), [HALT, 0, 9, 9, 7, 9]);
    }
}

#[test]
fn faults_end_a_job_in_the_round_of_the_second() {
    let two_faults = f_with(outside(), by_zero());
    assert_eq!(outcome(&two_faults, 1, 100), [FAULT, 33, 4, 4, 3, 4]);
    for lanes in 2..=8 {
        assert_eq!(outcome(&two_faults, lanes, 2), [SPENT, 0, 2, 2, 0, 2]);
        assert_eq!(outcome(&two_faults, lanes, 3), [FAULT, 33, 4, 4, 3, 3]);
        assert_eq!(outcome(&f(1), lanes, 2), [FAULT, 37, 2, 2, 2, 2]);
    }
}

#[test]
fn figure_2_in_its_settings() {
    for lanes in 1..=8 {
        let serial = outcome(&figure_2(2, 1, 0), lanes, u64::MAX);
        assert_eq!(serial, [HALT, 0, 13, 13, 13, 13]);
        let rounds = if lanes == 1 { 39 } else { 33 };
        for interval in [8, 10] {
            let halved = outcome(&figure_2(4, 2, interval), lanes, u64::MAX);
            assert_eq!(halved, [HALT, 0, 39, 39, 33, rounds]);
        }
        // Many promotions: more tasks than lanes, and all the bounds.
        let [end, ..] = outcome(&figure_2(1_000, 64, 8), lanes, u64::MAX);
        assert_eq!(end, HALT);
    }
}

#[test]
fn an_endless_job_is_spent_after_exactly_its_rounds() {
    for lanes in [1, 2, 8] {
        for budget in [0, 1, 2, 999_999, 1_000_000] {
            let expected = [SPENT, 0, budget, budget, 0, budget];
            assert_eq!(outcome(&endless(), lanes, budget), expected);
        }
    }
}

#[test]
fn two_tasks_for_ever() {
    for budget in [2, 3, 4, 100_000] {
        let both = 2 + 2 * (budget - 2);
        let [one, two] = [1, 2].map(|lanes| outcome(&two_for_ever(), lanes, budget));
        assert_eq!(one, [SPENT, 0, budget, budget, 0, budget]);
        assert_eq!(two, [SPENT, 0, both, both, 0, budget]);
    }
}

#[test]
fn one_task_takes_a_round_for_each_pick() {
    for picks in [5, 6, 7, 100_000] {
        for lanes in 1..=8 {
            let expected = [HALT, 0, picks, picks, picks, picks];
            assert_eq!(outcome(&of_picks(picks), lanes, picks), expected);
        }
    }
}

#[test]
fn lanes_outside_1_to_8_are_refused_by_41() {
    let job = f(2).bytes();
    let around = (0..=300).chain((1..64).flat_map(|bit| [1 << bit, (1 << bit) + 1]));
    for lanes in around.chain(WRONG_LANES) {
        let expected = if (1..=8).contains(&lanes) {
            Ok(())
        } else {
            Err(41)
        };
        for budget in [0, 7, u64::MAX] {
            assert_eq!(compared(&job, Rounds::new(lanes, budget)), expected);
        }
    }
}

#[test]
fn a_report_of_another_length_is_refused_by_15_before_the_lanes() {
    let job = f(2).bytes();
    let far = [DISPATCH_BYTES + 256, DISPATCH_BYTES + 65_536];
    for report_len in (0..2 * DISPATCH_BYTES).chain(far) {
        for lanes in [0, 1, 8, 9, u64::MAX] {
            let expected = match (report_len, lanes) {
                (DISPATCH_BYTES, 1 | 8) => Ok(()),
                (DISPATCH_BYTES, _) => Err(41),
                _ => Err(15),
            };
            let rounds = Rounds {
                report_len,
                ..Rounds::new(lanes, 100)
            };
            assert_eq!(compared(&job, rounds), expected);
        }
    }
}

#[test]
fn other_refusals_come_before_the_lanes_and_the_reports_length() {
    for (number, job) in refused() {
        for lanes in [0, 1, 8, 9, u64::MAX] {
            for report_len in [0, 424, 431, DISPATCH_BYTES, 433] {
                let rounds = Rounds {
                    report_len,
                    ..Rounds::new(lanes, 7)
                };
                assert_eq!(compared(&job, rounds), Err(number));
            }
        }
    }
}

#[test]
fn the_longest_jobs() {
    let mut job = long(65_535);
    assert_eq!(compared(&job, Rounds::new(9, 1)), Err(2));
    job.push(0);
    assert_eq!(compared(&job, Rounds::new(9, 1)), Err(10));

    let mut good = JobInput::new(checks::layout::even_blocks(128, 1024), 64, 0);
    good.words = vec![1; 4096];
    for lanes in 1..=8 {
        assert_eq!(compared(&good.bytes(), Rounds::new(lanes, 1000)), Ok(()));
    }
}

#[test]
fn every_byte_of_fs_job() {
    let job = f(2).bytes();
    for at in 0..job.len() {
        for byte in (0..=255).step_by(15).chain([1, 2, 3, 4, 7, 8, 64, 128]) {
            let mut changed = job.clone();
            changed[at] = byte;
            let _ = compared(&changed, Rounds::new(2, 500));
        }
    }
}
