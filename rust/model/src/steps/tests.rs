//! The five calls, their questions in order, and what is left of the buffers.

use super::*;
use crate::numbers::number_at;
use crate::sample::{calls, countdown, f};
use crate::{Program, WORK_LIMIT};

const ZEROS: [u8; REGISTERS_BYTES] = [0; REGISTERS_BYTES];
/// 4,097 words and a part of one.
static MANY: [u8; 8 * 4097 + 1] = [0; 8 * 4097 + 1];

fn cells_of(program: &Program) -> Vec<u8> {
    let mut buffer = vec![0; cells::BYTES];
    cells::write(program, &mut buffer);
    buffer
}

fn started(program: &Program, places: u64, r0: i64) -> Vec<u8> {
    let mut registers = ZEROS;
    registers[..8].copy_from_slice(&r0.to_le_bytes());
    let mut state = vec![0xa5; state::BYTES];
    let answer = start(&cells_of(program), places, 0, &registers, &[], &mut state);
    assert_eq!(answer, Ok(()));
    state
}

fn with(mut bytes: Vec<u8>, at: usize, number: u64) -> Vec<u8> {
    numbers::write([number], &mut bytes[8 * at..]);
    bytes
}

/// F with an instruction that question 8 refuses.
fn bad() -> Vec<u8> {
    with(cells_of(&f()), 771, 16)
}

/// What a pick is answered with; a refused one changes nothing.
fn pick_answer(program: &[u8], words: &[u8], slot: u64, state: &[u8]) -> u8 {
    let mut after = state.to_vec();
    match pick(program, words, slot, &mut after) {
        Ok(()) => 0,
        Err(number) => {
            assert!(after == state);
            number
        }
    }
}

/// The same for a run.
fn run_answer(program: &[u8], words: &[u8], state: &[u8], report_len: usize) -> u8 {
    let mut after = state.to_vec();
    let mut report = vec![0xa5; report_len];
    match run(program, words, 1, &mut after, &mut report) {
        Ok(()) => 0,
        Err(number) => {
            assert!(after == state && report == vec![0xa5; report_len]);
            number
        }
    }
}

#[test]
fn an_image_is_read_and_written_back() {
    for program in [f(), countdown(), calls()] {
        let image = image::write(&program).unwrap();
        let mut cells = vec![0xa5; cells::BYTES];
        assert_eq!(program_read(&image, &mut cells), Ok(()));
        assert_eq!(cells, cells_of(&program));
        let mut again = vec![0xa5; image.len()];
        assert_eq!(program_write(&cells, &mut again), Ok(()));
        assert_eq!(again, image);
    }
}

#[test]
fn reader_and_writer_put_15_last() {
    let image = image::write(&f()).unwrap();
    for length in [0, cells::BYTES - 8, cells::BYTES - 1, cells::BYTES + 1] {
        let mut cells = vec![0xa5; length];
        assert_eq!(program_read(&image, &mut cells), Err(15));
        assert_eq!(program_read(&image[..155], &mut cells), Err(5));
        assert_eq!(cells, vec![0xa5; length]);
    }
    let mut long = cells_of(&f());
    long.push(0);
    for (cells, length, expected) in [
        (&cells_of(&f())[..], 155, 15),
        (&cells_of(&f()), 157, 15),
        (&long, 156, 15),
        (&long[..8 * 816], 156, 15),
        (&long[..8 * 815], 156, 8),
        (&bad(), 155, 8),
    ] {
        let mut image = vec![0xa5; length];
        assert_eq!(program_write(cells, &mut image), Err(expected));
        assert_eq!(image, vec![0xa5; length]);
    }
}

#[test]
fn start_puts_its_questions_in_order() {
    let good = cells_of(&f());
    let answer = |program: &[u8], places, interval, registers: &[u8], words: &[u8], length| {
        let mut state = vec![0xa5; length];
        let answer = start(program, places, interval, registers, words, &mut state);
        assert!(answer.is_ok() || state == vec![0xa5; length]);
        answer.err().unwrap_or(0)
    };
    assert_eq!(answer(&bad()[1..], 3, 7, &[], &MANY, 0), 3);
    assert_eq!(answer(&bad()[..23], 3, 7, &[], &MANY, 0), 4);
    assert_eq!(answer(&bad(), 3, 7, &[], &MANY, 0), 8);
    assert_eq!(answer(&good, 3, 7, &[], &MANY, 0), 11);
    assert_eq!(answer(&good, 2, 7, &[], &MANY, 0), 12);
    assert_eq!(answer(&good, 2, 8, &ZEROS[1..], &MANY, 0), 13);
    assert_eq!(answer(&good, 2, 8, &[0; 136], &MANY, 0), 13);
    // Sixteen registers and a part of one.
    assert_eq!(answer(&good, 2, 8, &[0; 129], &MANY, 0), 14);
    assert_eq!(answer(&good, 2, 8, &ZEROS, &MANY[9..], 0), 15);
    let right = state::BYTES;
    assert_eq!(answer(&good, 2, 8, &ZEROS, &MANY[9..], right), 0);
    // 4,096 words and a part of one.
    assert_eq!(answer(&good, 2, 8, &ZEROS, &MANY[8..], right), 15);
    assert_eq!(answer(&good, 2, 8, &[0; 135], &[], right), 15);
    assert_eq!(answer(&good[..8 * 816], 2, 8, &ZEROS, &[], right), 15);
    for length in [0, right - 8, right - 1, right + 1, right + 8] {
        assert_eq!(answer(&good, 2, 8, &ZEROS, &[], length), 15);
    }
    for places in [1 << 32 | 2, 1 << 63, u64::MAX] {
        assert_eq!(answer(&good, places, 8, &ZEROS, &[], right), 11);
    }
    for interval in [1 << 16, 1 << 32 | 8, u64::MAX] {
        assert_eq!(answer(&good, 2, interval, &ZEROS, &[], right), 12);
    }
}

#[test]
fn pick_puts_its_questions_in_order() {
    let good = cells_of(&f());
    let state = started(&f(), 2, 4);
    let full = with(state.clone(), 2, WORK_LIMIT.into());
    let damaged = with(full.clone(), 1, 7);
    assert_eq!(pick_answer(&bad(), &MANY, 9, &damaged[1..]), 8);
    assert_eq!(pick_answer(&good, &MANY, 9, &damaged[1..]), 14);
    assert_eq!(pick_answer(&good, &MANY[8..], 9, &damaged), 15);
    assert_eq!(pick_answer(&good[8..], &[], 9, &state), 3);
    assert_eq!(pick_answer(&good[..16], &[], 9, &state), 4);
    assert_eq!(pick_answer(&good[..8 * 816], &[], 9, &damaged), 15);
    // 15 before 20, whatever the state's bytes are.
    assert_eq!(pick_answer(&good, &[], 9, &damaged[..8]), 15);
    assert_eq!(pick_answer(&good, &[], 9, &[]), 15);
    assert_eq!(pick_answer(&good, &MANY[9..], 9, &damaged), 20);
    assert_eq!(pick_answer(&good, &[], 2, &full), 21);
    assert_eq!(pick_answer(&good, &[], 1 << 32, &full), 21);
    assert_eq!(pick_answer(&good, &[], u64::MAX, &full), 21);
    assert_eq!(pick_answer(&good, &[], 1, &full), 23);
    assert_eq!(pick_answer(&good, &[], 0, &full), 24);
    assert_eq!(pick_answer(&good, &[], 0, &state), 0);

    let mut ended = state;
    let mut report = [0; report::BYTES];
    assert_eq!(run(&good, &[], 9, &mut ended, &mut report), Ok(()));
    let full = with(ended, 2, WORK_LIMIT.into());
    assert_eq!(pick_answer(&good, &[], 2, &full), 21);
    assert_eq!(pick_answer(&good, &[], 1, &full), 22);
}

#[test]
fn run_puts_a_picks_questions_up_to_20() {
    let good = cells_of(&f());
    let state = started(&f(), 2, 4);
    let damaged = with(state.clone(), 1, 7);
    assert_eq!(run_answer(&bad(), &MANY, &damaged, 0), 8);
    assert_eq!(run_answer(&good, &MANY, &damaged, 0), 14);
    assert_eq!(run_answer(&good, &MANY[8..], &damaged, 424), 15);
    assert_eq!(run_answer(&good, &[], &damaged[8..], 424), 15);
    for length in [0, 416, 423, 425, 432] {
        assert_eq!(run_answer(&good, &[], &damaged, length), 15);
    }
    assert_eq!(run_answer(&good, &[], &damaged, 424), 20);
    assert_eq!(run_answer(&good, &[], &state, 424), 0);
}

#[test]
fn every_call_that_is_lent_a_program_asks_for_its_version_first() {
    let state = started(&f(), 2, 4);
    for version in [0, 3, 65_535, 65_536 + 1, (1 << 32) + 2, u64::MAX] {
        // No blocks either, which is question 4.
        let wrong = with(with(cells_of(&f()), 0, version), 1, 0);
        assert_eq!(program_write(&wrong, &mut [0; 156]), Err(3));
        assert_eq!(start(&wrong, 3, 7, &[], &MANY, &mut []), Err(3));
        assert_eq!(pick_answer(&wrong, &MANY, 9, &[]), 3);
        assert_eq!(run_answer(&wrong, &MANY, &[], 0), 3);
        let none = with(cells_of(&f()), 1, 0);
        assert_eq!(pick_answer(&none, &MANY, 9, &state), 4);
    }
}

/// F by picks, and by runs of one pick each that begin at slot 0.
#[test]
fn f_step_by_step() {
    let cells = cells_of(&f());
    let mut state = started(&f(), 2, 4);
    for slot in [0, 0, 1, 0, 1, 0, 0, 0, 0] {
        assert_eq!(pick(&cells, &[], slot, &mut state), Ok(()));
    }
    assert_eq!(number_at(&state, 2), 9);
    assert_eq!((number_at(&state, 3), number_at(&state, 23)), (3, 12));

    let mut by_runs = started(&f(), 2, 4);
    let mut report = [0; report::BYTES];
    for work in 1..=9 {
        assert_eq!(run(&cells, &[], 1, &mut by_runs, &mut report), Ok(()));
        // The picks of this run, the work of all.
        assert_eq!((number_at(&report, 2), number_at(&report, 3)), (1, work));
        let end = if work == 9 {
            report::HALT
        } else {
            report::SPENT
        };
        assert_eq!(number_at(&report, 0), end);
    }
    assert!(by_runs == state);
    // An ended job stays as it is.
    assert_eq!(run(&cells, &[], 5, &mut by_runs, &mut report), Ok(()));
    assert!(by_runs == state);
    assert_eq!([0, 2, 3, 4].map(|at| number_at(&report, at)), [1, 0, 9, 7]);
}

#[test]
fn a_run_is_spent_at_the_limit() {
    let cells = cells_of(&countdown());
    let limit = u64::from(WORK_LIMIT);
    let mut report = [0; report::BYTES];
    for (left, picks, end) in [(0, 0, 0), (1, 1, 0), (10, 10, 0), (11, 11, 1), (12, 11, 1)] {
        let mut state = with(started(&countdown(), 1, 3), 2, limit - left);
        assert_eq!(run(&cells, &[], u64::MAX, &mut state, &mut report), Ok(()));
        let work = limit - left + picks;
        assert_eq!(
            [0, 2, 3].map(|at| number_at(&report, at)),
            [end, picks, work]
        );
        assert_eq!(number_at(&state, 2), work);
    }
}
