//! Engine and model on seeded jobs with orders of picks, and program F's orders.

use checks::assemble::JobInput;
use checks::hand::{by_zero, f, f_with, outside};
use checks::layout::even_blocks;
use checks::numbers::number_at;
use checks::replay::{compare, run, state_after, ReplayCase};
use checks::shares::expect_all_met;

const SEED: u64 = 0x7265_706c_6179;
const JOBS: u64 = 24_000;

#[test]
fn seeded_jobs() {
    expect_all_met(run(SEED, 0..JOBS), JOBS);
}

/// A task that loops for ever; of every three picks one is carried out, one names a slot without a
/// task and one a slot that the state has not.
#[test]
fn a_long_order_is_carried_out_to_its_end() {
    const PICKS: usize = 65_536;
    let case = ReplayCase {
        job: JobInput::new(even_blocks(128, 1024), 64, 0).bytes(),
        order: (0..PICKS).map(|at| [0, 1, 200][at % 3]).collect(),
        state_len: engine::STATE_BYTES,
    };
    let replayed = compare(&case, 0).unwrap().expect("start accepts the job");
    assert_eq!(replayed.refused.len(), PICKS - (PICKS + 2) / 3);
    assert_eq!(replayed.refused[..2], [23, 21]);
}

const HALTED: u64 = 3;
const FAULTED: u64 = 4;

/// Numbers of a state.
const WORK: usize = 2;
const STATUS: usize = 3;
const FAULT: usize = 4;
const SPAN: usize = 8;
const R0: usize = 22;

/// Status, fault number, work and span of slot 0's task.
fn outcome(state: &[u8]) -> [u64; 4] {
    [STATUS, FAULT, WORK, SPAN].map(|index| number_at(state, index))
}

#[test]
fn f_in_two_orders() {
    let parent_first = state_after(&f(2), &[0, 0, 0, 0, 1, 1, 0, 0, 0]);
    let child_first = state_after(&f(2), &[1, 0, 0, 1, 2, 1, 0, 1, 255, 0, 0, 0, 1, 0, 0]);
    assert_eq!(outcome(&parent_first), [HALTED, 0, 9, 7]);
    assert_eq!(number_at(&parent_first, R0 + 1), 12);
    assert!(parent_first == child_first);
}

#[test]
fn f_after_every_part_of_an_order() {
    let order = [0, 0, 1, 0, 1, 0, 0, 0, 0];
    for length in 0..=order.len() {
        let state = state_after(&f(2), &order[..length]);
        assert_eq!(number_at(&state, WORK), length as u64);
        let ended = number_at(&state, STATUS) == HALTED;
        assert_eq!(ended, length == order.len());
    }
}

#[test]
fn f_with_one_place_faults() {
    let state = state_after(&f(1), &[0, 0, 0]);
    assert_eq!(outcome(&state), [FAULTED, 37, 2, 2]);
}

#[test]
fn f_with_two_faults_keeps_the_parents_in_either_order() {
    let input = f_with(outside(), by_zero());
    let parent_first = state_after(&input, &[0, 0, 0, 1]);
    let child_first = state_after(&input, &[0, 0, 1, 0]);
    assert_eq!(outcome(&parent_first), [FAULTED, 33, 4, 3]);
    assert!(parent_first == child_first);
}
