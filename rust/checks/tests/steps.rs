//! Engine and model on seeded jobs in steps; every number of some states and every cell of some
//! programs changed; buffers of every length; and boundaries.

use checks::assemble::JobInput;
use checks::hand::{by_zero, endless, f, f_with, outside};
use checks::layout::{even_blocks, every_form, program_f};
use checks::lent::{salts, AT_END, AT_START};
use checks::numbers::number_at;
use checks::report::{FAULT, HALT, SPENT};
use checks::shares::expect_all_met;
use checks::steps::call::Call;
use checks::steps::damage::others;
use checks::steps::run;
use engine::{PROGRAM_BYTES, REGISTERS_BYTES, REPORT_BYTES, STATE_BYTES};
use model::{cells, state, WORK_LIMIT};

const SEED: u64 = 0x73_7465_7073;
const JOBS: u64 = 6_000;

#[test]
fn seeded_jobs() {
    expect_all_met(run(SEED, 0..JOBS), JOBS);
}

/// Numbers of a state.
const PLACES: usize = 0;
const INTERVAL: usize = 1;
const WORK: usize = 2;
const STATUS: usize = 3;
const PROGRAM_COUNTER: usize = 6;
const COUNTER: usize = 7;
const SPAN: usize = 8;
const R0: usize = 22;

/// What both answer, and what is written then.
fn compared(call: &Call) -> (u8, Vec<Vec<u8>>) {
    match call.compare(salts([AT_END, AT_START, AT_END, AT_START])) {
        Ok(answered) => (answered.number, answered.written),
        Err(what) => panic!("{}\n{}", call, what),
    }
}

fn answer(call: &Call) -> u8 {
    compared(call).0
}

/// A job's buffers.
struct Steps {
    image: Vec<u8>,
    program: Vec<u8>,
    registers: Vec<u8>,
    words: Vec<u8>,
    numbers: [u64; 2],
}

impl Steps {
    fn of(input: &JobInput) -> Self {
        let (number, mut read) = compared(&Call::read(&input.image, vec![0xa5; PROGRAM_BYTES]));
        assert_eq!(number, 0);
        Steps {
            image: input.image.clone(),
            program: read.remove(0),
            registers: input.register_bytes(),
            words: input.word_bytes(),
            numbers: [input.places.into(), input.interval.into()],
        }
    }

    fn start_call(&self) -> Call<'_> {
        let state = vec![0xa5; STATE_BYTES];
        Call::start(
            &self.program,
            self.numbers,
            &self.registers,
            &self.words,
            state,
        )
    }

    fn pick_call<'a>(&'a self, slot: u64, state: &'a [u8]) -> Call<'a> {
        Call::pick(&self.program, &self.words, slot, state)
    }

    fn run_call<'a>(&'a self, budget: u64, state: &'a [u8]) -> Call<'a> {
        let report = vec![0xa5; REPORT_BYTES];
        Call::run(&self.program, &self.words, budget, state, report)
    }

    fn fresh(&self) -> Vec<u8> {
        let (number, mut written) = compared(&self.start_call());
        assert_eq!(number, 0);
        written.remove(0)
    }

    fn after(&self, order: &[u64]) -> Vec<u8> {
        let mut state = self.fresh();
        for &slot in order {
            let (number, mut written) = compared(&self.pick_call(slot, &state));
            assert_eq!(number, 0);
            state = written.remove(0);
        }
        state
    }

    /// End, fault number, picks, work and span of a run, and the state after it.
    fn ran(&self, budget: u64, state: &[u8]) -> ([u64; 5], Vec<u8>) {
        let (number, mut written) = compared(&self.run_call(budget, state));
        assert_eq!(number, 0);
        let outcome = [0, 1, 2, 3, 4].map(|index| number_at(&written[1], index));
        (outcome, written.remove(0))
    }
}

fn with(bytes: &[u8], index: usize, number: u64) -> Vec<u8> {
    let mut bytes = bytes.to_vec();
    model::numbers::write([number], &mut bytes[8 * index..]);
    bytes
}

#[test]
fn f_pick_by_pick() {
    let steps = Steps::of(&f(2));
    let state = steps.after(&[0, 0, 1, 0, 1, 0, 0, 0, 0]);
    let outcome = [STATUS, WORK, SPAN, R0 + 1].map(|index| number_at(&state, index));
    assert_eq!(outcome, [3, 9, 7, 12]);
    assert!(state == steps.after(&[0, 0, 0, 0, 1, 1, 0, 0, 0]));
    // Ended: 21 before 22, 22 before 23.
    for slot in [2, 3, 64, 256, 1 << 32, u64::MAX] {
        assert_eq!(answer(&steps.pick_call(slot, &state)), 21);
    }
    assert_eq!(answer(&steps.pick_call(0, &state)), 22);
    assert_eq!(answer(&steps.pick_call(1, &state)), 22);

    // Waiting, and vacant.
    let waiting = steps.after(&[0, 0, 0, 0]);
    assert_eq!(answer(&steps.pick_call(0, &waiting)), 23);
    assert_eq!(answer(&steps.pick_call(1, &steps.fresh())), 23);
}

#[test]
fn f_by_runs() {
    let steps = Steps::of(&f(2));
    for first in 0..=10 {
        let (outcome, state) = steps.ran(first, &steps.fresh());
        if first < 9 {
            assert_eq!(outcome, [SPENT, 0, first, first, 0]);
        } else {
            assert_eq!(outcome, [HALT, 0, 9, 9, 7]);
        }
        let left = 9 - first.min(9);
        // A report's picks are this run's, its work is the job's.
        let (outcome, ended) = steps.ran(left, &state);
        assert_eq!(outcome, [HALT, 0, left, 9, 7]);
        for budget in [0, 1, u64::MAX] {
            let (outcome, same) = steps.ran(budget, &ended);
            assert_eq!(outcome, [HALT, 0, 0, 9, 7]);
            assert!(same == ended);
        }
    }
    let faulty = Steps::of(&f_with(outside(), by_zero()));
    assert_eq!(faulty.ran(4, &faulty.fresh()).0, [FAULT, 33, 4, 4, 3]);
    assert_eq!(faulty.ran(3, &faulty.fresh()).0, [SPENT, 0, 3, 3, 0]);
}

/// A state with a task at each depth: running, waiting and faulted ones, and vacant slots below P.
fn deep() -> (Steps, Vec<u8>) {
    let mut input = f_with(outside(), by_zero());
    input.image = deep_image();
    input.places = 32;
    let steps = Steps::of(&input);
    let (_, state) = steps.ran(22, &steps.fresh());
    let met: Vec<u64> = (0..64)
        .map(|slot| number_at(&state, STATUS + state::SLOT_NUMBERS * slot))
        .collect();
    for status in [0, 1, 2, 4] {
        assert!(met[..32].contains(&status), "{:?}", met);
    }
    (steps, state)
}

/// Block 0 forks four times under one record, with something of each kind on its stack; the children
/// fault, wait, or go on.
fn deep_image() -> Vec<u8> {
    use checks::assemble::{
        fork, halt, join, jralloc, jump, mov, push, Annotation, Assembly,
        Operand::{Int, Lab, Reg},
    };
    let mut deep = Assembly::default();
    let target = Annotation::JoinTarget {
        policy: 0,
        combining: 2,
        pairs: vec![checks::layout::pair(0, 2)],
    };
    let code = [
        jralloc(1, Lab(1)),
        mov(3, Lab(2)),
        push(Lab(2)),
        push(Reg(1)),
        push(Int(-9)),
        fork(1, Lab(2)),
        fork(1, Lab(3)),
        fork(1, Lab(4)),
        fork(1, Lab(4)),
        jump(Lab(4)),
    ];
    deep.block(Annotation::None, &code);
    deep.block(target, &[halt()]);
    deep.block(Annotation::None, &[push(Int(1)), join(Reg(1))]);
    deep.block(Annotation::None, &[outside(), join(Reg(1))]);
    deep.block(Annotation::None, &[mov(0, Int(-1)), jump(Lab(4))]);
    deep.image()
}

/// Whether the number at this index of a state is of a slot without a task.
fn is_vacant(state: &[u8], index: usize) -> bool {
    let slot = index.checked_sub(STATUS).map(|at| at / state::SLOT_NUMBERS);
    slot.map_or(false, |slot| {
        number_at(state, STATUS + state::SLOT_NUMBERS * slot) == 0
    })
}

/// Each of the 10,499 numbers with others in its place, in states with every status.
#[test]
fn every_number_of_some_states() {
    let (deep, state) = deep();
    let halted = Steps::of(&f(64));
    let (_, ended) = halted.ran(9, &halted.fresh());
    let faulted = Steps::of(&f(1));
    let (_, fault) = faulted.ran(2, &faulted.fresh());
    let cases = [
        (&deep, state, 0, 3),
        (&halted, halted.fresh(), 0, 40),
        (&halted, ended, 0, 0),
        (&faulted, fault, 0, 0),
    ];
    for (steps, state, slot, budget) in cases {
        let [mut taken, mut refused] = [0, 0];
        for index in 0..state::NUMBERS {
            // A vacant slot's numbers are all alike.
            let count = if is_vacant(&state, index) { 2 } else { 8 };
            let numbers = others(number_at(&state, index)).into_iter().take(count);
            for (nth, number) in numbers.enumerate() {
                let damaged = with(&state, index, number);
                let verdict = answer(&steps.pick_call(slot, &damaged)) == 20;
                // A run puts the same question.
                if (index + nth) % 5 == 0 {
                    assert_eq!(answer(&steps.run_call(budget, &damaged)) == 20, verdict);
                }
                if verdict {
                    refused += 1;
                } else {
                    taken += 1;
                }
            }
        }
        println!("{} taken, {} refused", taken, refused);
        assert!(taken > 0 && refused > 20_000);
    }
}

/// Each of the 5,891 cells with others in its place.
#[test]
fn every_cell_of_some_programs() {
    for image in [
        program_f(),
        every_form(1),
        every_form(2),
        even_blocks(128, 1024),
    ] {
        let steps = Steps::of(&JobInput::new(image, 64, 8));
        let fresh = steps.fresh();
        let after_blocks = 3 + 6 * number_at(&steps.program, 1) as usize;
        let after_instructions = 771 + 5 * number_at(&steps.program, 2) as usize;
        let mut met = [0; 10];
        for index in 0..cells::CELLS {
            let used = index < after_blocks || (771..after_instructions).contains(&index);
            let numbers = others(number_at(&steps.program, index));
            for &number in &numbers[..if used { numbers.len() } else { 2 }] {
                let damaged = with(&steps.program, index, number);
                let image = vec![0xa5; steps.image.len()];
                let written = answer(&Call::write(&damaged, image));
                // Start, pick and run put the same questions to their program.
                let call = match index % 3 {
                    0 => Call::start(&damaged, [2, 0], &steps.registers, &[], fresh.clone()),
                    1 => Call::pick(&damaged, &[], 0, &fresh),
                    _ => Call::run(&damaged, &[], 3, &fresh, vec![0xa5; REPORT_BYTES]),
                };
                let refused = answer(&call);
                // With another count or version the image has another length.
                let expected = if written == 15 { 0 } else { written };
                assert_eq!(refused, expected, "cell {}", index);
                assert!(used || written == 0, "cell {}", index);
                met[usize::from(expected)] += 1;
            }
        }
        println!("answers by number: {:?}", met);
        for number in [0, 3, 4, 6, 7, 8, 9] {
            assert!(met[number] > 0, "nothing answered {}", number);
        }
    }
}

/// Lengths up to `all`, those around the right one, and some in between.
fn lengths(all: usize, right: usize) -> impl Iterator<Item = usize> {
    let between = (all..right).step_by(487);
    let around = right.saturating_sub(20)..right + 20;
    let beyond = [2 * right, right + 256, right + 65_536];
    (0..all).chain(between).chain(around).chain(beyond)
}

#[test]
fn programs_of_every_length() {
    let steps = Steps::of(&f(2));
    let fresh = steps.fresh();
    let mut long = steps.program.clone();
    long.resize(3 * PROGRAM_BYTES, 0xff);
    for length in lengths(8 * 30, PROGRAM_BYTES).chain(8 * 768..8 * 820) {
        let program = &long[..length];
        // Four blocks end at cell 27, nine instructions at cell 816.
        let expected = match length {
            0..=7 => 3,
            8..=23 => 4,
            _ if length < 8 * 27 => 6,
            _ if length < 8 * 816 => 8,
            PROGRAM_BYTES => 0,
            _ => 15,
        };
        let image = vec![0xa5; steps.image.len()];
        assert_eq!(answer(&Call::write(program, image)), expected);
        let start = Call::start(program, [2, 0], &steps.registers, &[], fresh.clone());
        assert_eq!(answer(&start), expected);
        assert_eq!(answer(&Call::pick(program, &[], 0, &fresh)), expected);
        let run = Call::run(program, &[], 1, &fresh, vec![0xa5; REPORT_BYTES]);
        assert_eq!(answer(&run), expected);
        let expected = if length == PROGRAM_BYTES { 0 } else { 15 };
        let read = Call::read(&steps.image, vec![0xa5; length]);
        assert_eq!(answer(&read), expected);
    }
}

#[test]
fn images_of_every_length() {
    let steps = Steps::of(&f(2));
    for length in 0..2 * steps.image.len() {
        let expected = if length == steps.image.len() { 0 } else { 15 };
        let call = Call::write(&steps.program, vec![0xa5; length]);
        assert_eq!(answer(&call), expected);
    }
}

#[test]
fn registers_and_words_of_every_length() {
    let steps = Steps::of(&f(2));
    let fresh = steps.fresh();
    let bytes = vec![0; 8 * 70_000];
    for length in lengths(3 * REGISTERS_BYTES, REGISTERS_BYTES) {
        let registers = vec![0; length];
        let expected = match length {
            REGISTERS_BYTES => 0,
            _ if length / 8 == 16 => 15,
            _ => 13,
        };
        let call = Call::start(&steps.program, [2, 0], &registers, &[], fresh.clone());
        assert_eq!(answer(&call), expected, "{} bytes", length);
    }
    // Numbers of words that are allowed in their low 16 bits, too.
    let many = [65_536, 65_539, 69_632].map(|count| 8 * count);
    for length in (0..60).chain(8 * 4096 - 10..8 * 4096 + 30).chain(many) {
        let words = &bytes[..length];
        let expected = match length {
            _ if length / 8 > 4096 => 14,
            _ if length % 8 == 0 => 0,
            _ => 15,
        };
        let start = Call::start(
            &steps.program,
            [2, 0],
            &steps.registers,
            words,
            fresh.clone(),
        );
        assert_eq!(answer(&start), expected, "{} bytes", length);
        let pick = Call::pick(&steps.program, words, 0, &fresh);
        assert_eq!(answer(&pick), expected, "{} bytes", length);
        let report = vec![0xa5; REPORT_BYTES];
        let run = Call::run(&steps.program, words, 2, &fresh, report);
        assert_eq!(answer(&run), expected, "{} bytes", length);
    }
}

/// Bytes of a state that stands for nothing: 15 is asked before 20.
#[test]
fn states_and_reports_of_every_length() {
    let steps = Steps::of(&f(2));
    let mut long = steps.fresh();
    long.resize(3 * STATE_BYTES, 0xff);
    let damaged = with(&long, STATUS, 9);
    for length in lengths(40, STATE_BYTES) {
        let right = length == STATE_BYTES;
        for (state, of_its_length) in [(&long, 0), (&damaged, 20)] {
            let state = &state[..length];
            let expected = if right { of_its_length } else { 15 };
            assert_eq!(answer(&steps.pick_call(0, state)), expected);
            assert_eq!(answer(&steps.run_call(1, state)), expected);
        }
        let start = Call::start(
            &steps.program,
            [2, 0],
            &steps.registers,
            &[],
            vec![0xa5; length],
        );
        assert_eq!(answer(&start), if right { 0 } else { 15 });
    }
    for length in 0..2 * REPORT_BYTES {
        let right = length == REPORT_BYTES;
        for (state, of_its_length) in [(&long, 0), (&damaged, 20)] {
            let state = &state[..STATE_BYTES];
            let call = Call::run(&steps.program, &[], 1, state, vec![0xa5; length]);
            assert_eq!(answer(&call), if right { of_its_length } else { 15 });
        }
    }
}

#[test]
fn questions_in_order() {
    let steps = Steps::of(&f(2));
    let bad = with(&steps.program, 771, 1 << 32 | 11);
    let many = vec![0; 8 * 4097 + 1];
    let longest = &many[..8 * 4096];
    let state = || vec![0xa5; 7];
    let start = |program, numbers, registers, words| {
        answer(&Call::start(program, numbers, registers, words, state()))
    };
    assert_eq!(start(&bad, [3, 7], &[], &many), 8);
    assert_eq!(start(&steps.program, [3, 7], &[], &many), 11);
    assert_eq!(start(&steps.program, [1 << 32 | 2, 7], &[], &many), 11);
    assert_eq!(start(&steps.program, [2, 7], &[], &many), 12);
    assert_eq!(start(&steps.program, [2, 1 << 32], &[], &many), 12);
    assert_eq!(start(&steps.program, [2, 8], &[], &many), 13);
    assert_eq!(start(&steps.program, [2, 8], &[0; 129], &many), 14);
    assert_eq!(start(&steps.program, [2, 8], &[0; 128], longest), 15);

    let full = with(&steps.fresh(), WORK, WORK_LIMIT.into());
    let shapeless = with(&full, INTERVAL, 7);
    let pick =
        |program, words, slot, state: &[u8]| answer(&Call::pick(program, words, slot, state));
    assert_eq!(pick(&bad, &many, 9, &shapeless[1..]), 8);
    assert_eq!(pick(&steps.program, &many, 9, &shapeless[1..]), 14);
    assert_eq!(pick(&steps.program, &many[..9], 9, &shapeless), 15);
    assert_eq!(pick(&steps.program, longest, 9, &shapeless), 20);
    assert_eq!(pick(&steps.program, longest, 9, &full), 21);
    assert_eq!(pick(&steps.program, longest, 1, &full), 23);
    assert_eq!(pick(&steps.program, longest, 0, &full), 24);

    let run = |program, words, state: &[u8], length| {
        answer(&Call::run(program, words, 1, state, vec![0xa5; length]))
    };
    assert_eq!(run(&bad, &many, &shapeless, 0), 8);
    assert_eq!(run(&steps.program, &many, &shapeless, 0), 14);
    assert_eq!(run(&steps.program, longest, &shapeless, 0), 15);
    assert_eq!(run(&steps.program, longest, &shapeless, REPORT_BYTES), 20);
    assert_eq!(run(&steps.program, longest, &full, REPORT_BYTES), 0);
}

/// The work stands just below its limit, as it would after days.
#[test]
fn the_works_limit() {
    let limit = u64::from(WORK_LIMIT);
    let steps = Steps::of(&f(2));
    let fresh = steps.fresh();
    let full = with(&fresh, WORK, limit);
    assert_eq!(answer(&steps.pick_call(0, &full)), 24);
    let (number, written) = compared(&steps.pick_call(0, &with(&fresh, WORK, limit - 1)));
    assert_eq!((number, number_at(&written[0], WORK)), (0, limit));
    // What a task has counted may be as much.
    let counted = with(&with(&fresh, WORK, limit - 1), COUNTER, limit - 1);
    let (number, written) = compared(&steps.pick_call(0, &with(&counted, SPAN, limit - 1)));
    let counts = [WORK, COUNTER, SPAN].map(|index| number_at(&written[0], index));
    assert_eq!((number, counts), (0, [limit; 3]));

    for budget in [20, 1_000_000, u64::MAX] {
        for left in 0..9 {
            let (outcome, _) = steps.ran(budget, &with(&fresh, WORK, limit - left));
            assert_eq!(outcome, [SPENT, 0, left, limit, 0]);
        }
        // It ends on the last pick there is.
        let (outcome, _) = steps.ran(budget, &with(&fresh, WORK, limit - 9));
        assert_eq!(outcome, [HALT, 0, 9, limit, 7]);
        let (_, ended) = steps.ran(9, &fresh);
        let (outcome, _) = steps.ran(budget, &with(&ended, WORK, limit));
        assert_eq!(outcome, [HALT, 0, 0, limit, 7]);
    }
    let endless = Steps::of(&endless());
    let near = with(&endless.fresh(), WORK, limit - 1_000);
    let (outcome, state) = endless.ran(u64::MAX, &near);
    assert_eq!(outcome, [SPENT, 0, 1_000, limit, 0]);
    assert_eq!(answer(&endless.pick_call(0, &state)), 24);
}

/// What a reader of states must not take, or cut to size.
#[test]
fn states_that_are_not_taken() {
    let steps = Steps::of(&f(2));
    let fresh = steps.fresh();
    let forked = steps.after(&[0, 0]);
    let refused = |state: &[u8], index, number| {
        let damaged = with(state, index, number);
        assert_eq!(answer(&steps.pick_call(0, &damaged)), 20);
        assert_eq!(answer(&steps.run_call(5, &damaged)), 20);
    };
    // A waiting task at depth 0; program counter and counter are 0.
    refused(&fresh, STATUS, 2);
    for status in [5, 9, 1 << 8 | 1, 1 << 32 | 1] {
        refused(&fresh, STATUS, status);
    }
    for kind in [3, 1 << 8, 1 << 32] {
        refused(&fresh, R0, kind);
    }
    refused(&fresh, R0 + 2, 1);
    for (index, width) in [
        (INTERVAL, 16),
        (WORK, 32),
        (PROGRAM_COUNTER, 16),
        (COUNTER, 32),
        (SPAN, 32),
        (PLACES, 8),
        (PLACES, 32),
        (5, 8),
        (9, 8),
        (9, 32),
        (10, 8),
        (10, 32),
        (11, 32),
        (R0 + 4, 8),
        (R0 + 4, 32),
        (R0 + 5, 32),
    ] {
        let number = number_at(&forked, index);
        refused(&forked, index, number | 1 << width);
    }
    // A record's depth of 32 bits is a number that a state can have, and is kept.
    let deep = with(&forked, R0 + 5, u32::MAX.into());
    let (number, written) = compared(&steps.pick_call(1, &deep));
    assert_eq!(
        (number, number_at(&written[0], R0 + 5)),
        (0, u32::MAX.into())
    );
}

/// The program that a state is handed in with counts.
#[test]
fn a_state_with_another_program() {
    let steps = Steps::of(&f(2));
    let other = Steps::of(&endless());
    let forked = steps.after(&[0, 0]);
    assert_eq!(answer(&other.pick_call(0, &forked)), 20);
    assert_eq!(answer(&other.run_call(1, &forked)), 20);
    // A fresh state names nothing of its program.
    assert_eq!(answer(&other.pick_call(0, &steps.fresh())), 0);
}
