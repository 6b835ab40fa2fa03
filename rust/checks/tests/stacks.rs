//! Document 02's request 4 in steps: question 3 at every door, and what a state says of stacks. Each
//! call is put to the model and to the engine.

use checks::assemble::JobInput;
use checks::budgets::{self, BudgetCase};
use checks::dispatch::{self, Rounds};
use checks::hand::{call_and_return, f, f_with_stack, pushes};
use checks::lent::{salts, AT_END, AT_START};
use checks::numbers::number_at;
use checks::replay::{self, ReplayCase};
use checks::steps::call::Call;
use checks::{assemble, layout};
use engine::{PROGRAM_BYTES, REPORT_BYTES, STATE_BYTES};
use model::state::{HEIGHT_AT, JOB_NUMBERS, REGISTERS_AT, SLOT_NUMBERS, STACK_AT};

const STATUS: usize = JOB_NUMBERS;
const FAULT_NUMBER: usize = JOB_NUMBERS + 1;
const HEIGHT: usize = JOB_NUMBERS + HEIGHT_AT;
const ENTRIES: usize = JOB_NUMBERS + STACK_AT;
const FAULTED: u64 = 4;
const HALTED: u64 = 3;

const OTHER_VERSIONS: [u64; 7] = [0, 3, 256, 65_535, 65_537, (1 << 32) + 2, u64::MAX];

fn compared(call: &Call) -> (u8, Vec<Vec<u8>>) {
    match call.compare(salts([AT_END, AT_START, AT_END, AT_START])) {
        Ok(answered) => (answered.number, answered.written),
        Err(what) => panic!("{}\n{}", call, what),
    }
}

fn answer(call: &Call) -> u8 {
    compared(call).0
}

fn program_of(input: &JobInput) -> Vec<u8> {
    let (number, mut read) = compared(&Call::read(&input.image, vec![0xa5; PROGRAM_BYTES]));
    assert_eq!(number, 0);
    read.remove(0)
}

fn fresh(program: &[u8], input: &JobInput) -> Vec<u8> {
    let registers = input.register_bytes();
    let numbers = [input.places.into(), input.interval.into()];
    let start = Call::start(program, numbers, &registers, &[], vec![0xa5; STATE_BYTES]);
    let (number, mut written) = compared(&start);
    assert_eq!(number, 0);
    written.remove(0)
}

fn picked(program: &[u8], mut state: Vec<u8>, order: &[u64]) -> Vec<u8> {
    for &slot in order {
        let (number, mut written) = compared(&Call::pick(program, &[], slot, &state));
        assert_eq!(number, 0);
        state = written.remove(0);
    }
    state
}

fn with(bytes: &[u8], index: usize, number: u64) -> Vec<u8> {
    let mut bytes = bytes.to_vec();
    model::numbers::write([number], &mut bytes[8 * index..]);
    bytes
}

fn numbers(state: &[u8], from: usize, count: usize) -> Vec<u64> {
    (from..from + count)
        .map(|at| number_at(state, at))
        .collect()
}

/// What a pick and a run of this state are answered with, which is the same.
fn taken(program: &[u8], state: &[u8]) -> bool {
    let run = Call::run(program, &[], 0, state, vec![0xa5; REPORT_BYTES]);
    let run = answer(&run);
    let pick = answer(&Call::pick(program, &[], 0, state));
    assert_eq!(run == 20, pick == 20);
    run != 20
}

#[test]
fn question_3_comes_before_4_at_every_door_of_a_program() {
    let program = program_of(&f(2));
    let state = fresh(&program, &f(2));
    for version in OTHER_VERSIONS {
        let wrong = with(&program, 0, version);
        // Alone; with no blocks; with no instructions; and in a buffer of one cell.
        let others = [with(&wrong, 1, 0), with(&wrong, 2, 0), wrong[..8].to_vec()];
        for program in others.iter().chain([&wrong]) {
            assert_eq!(answer(&Call::write(program, vec![0xa5; 156])), 3);
            let start = Call::start(program, [3, 7], &[], &[], vec![0xa5; 7]);
            assert_eq!(answer(&start), 3);
            assert_eq!(answer(&Call::pick(program, &[0; 7], 9, &state[1..])), 3);
            let run = Call::run(program, &[0; 7], 1, &state[1..], vec![0xa5; 7]);
            assert_eq!(answer(&run), 3);
        }
    }
    for length in 0..8 {
        assert_eq!(answer(&Call::write(&program[..length], vec![0xa5; 156])), 3);
        assert_eq!(answer(&Call::pick(&program[..length], &[], 0, &state)), 3);
    }
    assert_eq!(answer(&Call::pick(&program[..8], &[], 0, &state)), 4);
}

#[test]
fn question_3_comes_before_4_at_every_door_of_a_job() {
    for version in [0u16, 3, 256, 65_535] {
        for block_count in [0, 4, 129] {
            let mut input = f(2);
            input.image[3..5].copy_from_slice(&version.to_le_bytes());
            input.image[5] = block_count;
            input.places = 3;
            let job = input.bytes();
            let run = BudgetCase::new(job.clone(), 9);
            assert_eq!(budgets::compare(&run, 0).expect("no difference"), Err(3));
            let rounds = Rounds::new(9, 1);
            let dispatched = dispatch::compare(&job, rounds, 0).expect("no difference");
            assert_eq!(dispatched.err(), Some(3));
            let order = ReplayCase {
                job,
                order: vec![0],
                state_len: 7,
            };
            let replayed = replay::compare(&order, 0).expect("no difference");
            assert_eq!(replayed.err(), Some(3));
            let read = Call::read(&input.image, vec![0xa5; 7]);
            assert_eq!(answer(&read), 3);
        }
    }
}

/// The same cells are another program, or none, as the other version's.
#[test]
fn the_version_is_part_of_the_program() {
    let first = program_of(&f(2));
    let second = with(&first, 0, 2);
    // 8 + 14 * 4 + 12 * 9.
    assert_eq!(answer(&Call::write(&second, vec![0xa5; 156])), 15);
    let (number, images) = compared(&Call::write(&second, vec![0xa5; 172]));
    assert_eq!((number, &images[0][..5]), (0, &b"TPB\x02\0"[..]));
    let (number, read) = compared(&Call::read(&images[0], vec![0xa5; PROGRAM_BYTES]));
    assert!(number == 0 && read[0] == second);
    // A state is taken by both, and goes on alike.
    let state = fresh(&first, &f(2));
    let order = [0, 0, 1, 0, 1, 0, 0, 0, 0];
    assert!(picked(&first, state.clone(), &order) == picked(&second, state, &order));

    let calls = program_of(&call_and_return());
    assert_eq!(number_at(&calls, 0), 2);
    assert_eq!(
        answer(&Call::write(&with(&calls, 0, 1), vec![0xa5; 156])),
        8
    );
    let mut pairs = with(&second, 19, 5);
    pairs = with(&pairs, 20, 0x09_0807_0605);
    assert_eq!(answer(&Call::write(&pairs, vec![0xa5; 172])), 0);
    assert_eq!(
        answer(&Call::write(&with(&pairs, 0, 1), vec![0xa5; 156])),
        7
    );
}

#[test]
fn a_call_and_its_return_pick_by_pick() {
    let input = call_and_return();
    let program = program_of(&input);
    let state = picked(&program, fresh(&program, &input), &[0]);
    // A label, block 1, on the stack.
    assert_eq!(numbers(&state, HEIGHT, 7), [1, 1, 1, 0, 0, 0, 0]);
    let state = picked(&program, state, &[0, 0, 0]);
    assert_eq!(numbers(&state, HEIGHT, 7), [0; 7]);
    let r1 = JOB_NUMBERS + REGISTERS_AT + 3;
    assert_eq!(numbers(&state, r1, 3), [1, 1, 0]);
    let state = picked(&program, state, &[0; 7]);
    assert_eq!(number_at(&state, STATUS), HALTED);
    assert_eq!(numbers(&state, r1 - 3, 6), [0, 10, 0, 1, 3, 0]);
}

#[test]
fn stacks_across_a_fork() {
    let input = f_with_stack(&[assemble::push(assemble::Operand::Int(7))]);
    let program = program_of(&input);
    let forked = picked(&program, fresh(&program, &input), &[0, 0, 0]);
    let other = SLOT_NUMBERS;
    assert_eq!(numbers(&forked, HEIGHT, 4), [1, 0, 10, 0]);
    assert_eq!(numbers(&forked, HEIGHT + other, 4), [0; 4]);
    let both = picked(&program, forked, &[0, 1]);
    assert_eq!(numbers(&both, HEIGHT, 7), [2, 0, 10, 0, 0, 20, 0]);
    assert_eq!(numbers(&both, HEIGHT + other, 4), [1, 0, 7, 0]);
    for order in [[0, 1], [1, 0]] {
        // Waiting, each keeps its own; joined, the parent's is left.
        let joined = picked(&program, both.clone(), &order);
        assert_eq!(numbers(&joined, HEIGHT, 7), [2, 0, 10, 0, 0, 20, 0]);
        assert_eq!(numbers(&joined, HEIGHT + other, 97), [0; 97]);
        let popped = picked(&program, joined, &[0]);
        assert_eq!(numbers(&popped, HEIGHT, 7), [1, 0, 10, 0, 0, 0, 0]);
    }
}

#[test]
fn a_full_stack_and_an_empty_one() {
    for (count, status, fault) in [(31, HALTED, 0), (32, HALTED, 0), (33, FAULTED, 42)] {
        let input = pushes(count);
        let program = program_of(&input);
        let picks = count.min(32) + 1;
        let state = picked(&program, fresh(&program, &input), &vec![0; picks]);
        assert_eq!(numbers(&state, STATUS, 2), [status, fault]);
        let expected = if fault == 0 { count as u64 } else { 0 };
        assert_eq!(number_at(&state, HEIGHT), expected);
        let left = numbers(&state, ENTRIES, 96);
        assert_eq!(left.iter().filter(|&&n| n == 7).count() as u64, expected);
    }
    let input = f_with_stack(&[assemble::pop(2)]);
    let program = program_of(&input);
    let state = picked(&program, fresh(&program, &input), &[0, 0, 0, 1]);
    assert_eq!(numbers(&state, STATUS + SLOT_NUMBERS, 2), [FAULTED, 43]);
    let state = picked(&program, state, &[0, 0]);
    assert_eq!(numbers(&state, STATUS, 2), [FAULTED, 43]);
    assert_eq!(numbers(&state, HEIGHT, 97), [0; 97]);
}

#[test]
fn heights_and_entries_of_a_state() {
    // Of the state alone: the program's version does not matter.
    for version in [1, 2] {
        let program = with(&program_of(&f(2)), 0, version);
        let state = fresh(&program, &f(2));
        for (height, expected) in [(0, true), (1, true), (32, true), (33, false), (64, false)] {
            assert_eq!(taken(&program, &with(&state, HEIGHT, height)), expected);
        }
        for height in [256, (1 << 16) + 1, (1 << 32) + 1, 1 << 63, u64::MAX] {
            assert!(!taken(&program, &with(&state, HEIGHT, height)));
        }
        let entry = |at: usize, value: [u64; 3]| {
            let mut state = with(&state, HEIGHT, 5);
            model::numbers::write(value, &mut state[8 * (ENTRIES + 3 * at)..]);
            taken(&program, &state)
        };
        for at in [0, 4] {
            assert!(entry(at, [0, u64::MAX, 0]) && entry(at, [1, 3, 0]));
            assert!(entry(at, [2, 2, 0]) && entry(at, [2, 2, u32::MAX.into()]));
            for wrong in [
                [0, 1, 1],
                [1, 4, 0],
                [1, 3, 1],
                [2, 1, 0],
                [2, 4, 0],
                [3, 0, 0],
            ] {
                assert!(!entry(at, wrong), "{:?}", wrong);
            }
            assert!(!entry(at, [2, 2, 1 << 32]) && !entry(at, [1 << 32, 0, 0]));
        }
        for at in [5, 6, 31] {
            assert!(entry(at, [0, 0, 0]));
            for wrong in [[0, 1, 0], [0, 0, 1], [1, 0, 0], [2, 2, 0]] {
                assert!(!entry(at, wrong), "{:?}", wrong);
            }
        }
        // A slot without a task has none.
        for slot in [1, 2, 63] {
            for at in [HEIGHT, ENTRIES, ENTRIES + 95] {
                assert!(!taken(&program, &with(&state, at + SLOT_NUMBERS * slot, 1)));
            }
        }
    }
}

#[test]
fn fault_numbers_of_a_state() {
    let input = f(1);
    let first = program_of(&input);
    let faulted = picked(&first, fresh(&first, &input), &[0, 0]);
    assert_eq!(numbers(&faulted, STATUS, 2), [FAULTED, 37]);
    for number in 0..=60 {
        let state = with(&faulted, FAULT_NUMBER, number);
        let of_first = (31..=38).contains(&number);
        assert_eq!(taken(&first, &state), of_first, "{}", number);
        let of_second = of_first || number == 42 || number == 43;
        assert_eq!(taken(&with(&first, 0, 2), &state), of_second, "{}", number);
    }
    // A faulted task has nothing on its stack.
    assert!(!taken(&first, &with(&faulted, HEIGHT, 1)));
}

/// The engine's buffers are as long as the header says.
#[test]
fn lengths() {
    assert_eq!((PROGRAM_BYTES, STATE_BYTES), (8 * 5_891, 8 * 10_499));
    assert_eq!(JOB_NUMBERS + 64 * SLOT_NUMBERS, 10_499);
    assert_eq!(layout::block_len(2) - layout::block_len(1), 4);
}
