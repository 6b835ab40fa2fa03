//! Jobs and orders of picks put to the engine's replay and to the model's machine.

use crate::assemble::JobInput;
use crate::counts::Counts;
use crate::jobs::{difference, job, refused};
use crate::lent::{salt_of, Lent};
use crate::orders::{any_number, Manner, MANNERS};
use crate::random::Random;
use crate::replay_coverage::ReplayCoverage;
use crate::{numbers, shares, state};
use engine::STATE_BYTES;
use model::{question, Call, Job, Machine, Status};
use std::ops::Range;

/// What a replay is handed.
pub struct ReplayCase {
    pub job: Vec<u8>,
    pub order: Vec<u8>,
    pub state_len: usize,
}

/// What an order that was not refused comes to on the model.
pub struct Replayed {
    pub machine: Machine,
    /// The numbers of the refused picks.
    pub refused: Vec<u8>,
}

/// The case of this number under this seed.
pub fn case(seed: u64, number: u64) -> ReplayCase {
    // Not the numbers that the job was made from.
    let random = &mut Random::new(!seed, number);
    let (job, order) = if random.one_in(6) {
        let length = random.below(8);
        let order = (0..length).map(|_| random.byte()).collect();
        (refused(seed, number).bytes, order)
    } else {
        let bytes = job(seed, number).input.bytes();
        let order = order(&bytes, random);
        (bytes, order)
    };
    let state_len = if random.one_in(16) {
        random.pick(&[
            0,
            8,
            STATE_BYTES - 8,
            STATE_BYTES - 1,
            STATE_BYTES + 1,
            STATE_BYTES + 8,
            2 * STATE_BYTES,
        ])
    } else {
        STATE_BYTES
    };
    ReplayCase {
        job,
        order,
        state_len,
    }
}

/// Running tasks mostly, with refused picks among them and up to three after the end.
fn order(job: &[u8], random: &mut Random) -> Vec<u8> {
    let job = Job::parse(job).expect("the job is as laid out");
    let mut machine = job.start().expect("start accepts the job");
    let call = Call::new(&job.program, &job.words).expect("start put the same questions");
    // Long orders are rare: every pick of the engine puts all questions.
    let length = match random.below(8) {
        0 => random.below(4),
        1..=3 => random.below(40),
        4..=6 => random.below(150),
        _ => random.below(400),
    };
    let manner = random.pick(&MANNERS);
    let mut after_end = random.below(4);
    let mut order = Vec::with_capacity(length);
    let mut last = 0;
    while order.len() < length {
        let running = running(&machine);
        if running.is_empty() {
            if after_end == 0 {
                break;
            }
            after_end -= 1;
        }
        let slot = if running.is_empty() || random.one_in(8) {
            any_number(random, machine.places()).min(255)
        } else {
            last = manner
                .next(random, &running, last, machine.places())
                .min(255);
            last
        };
        order.push(slot as u8);
        let _ = machine.pick_in(call, slot);
    }
    order
}

/// An order of a job that ends, in each manner and to the end, with the manner's name.
pub fn orders_to_the_end(job: &[u8], seed: u64) -> Vec<(String, Vec<u8>)> {
    let job = Job::parse(job).expect("the job is as laid out");
    let call = Call::new(&job.program, &job.words).expect("start puts the same questions");
    let to_the_end = |manner: Manner| {
        let random = &mut Random::new(seed, manner as u64);
        let mut machine = job.start().expect("start accepts the job");
        let mut order = Vec::new();
        let mut last = 0;
        while machine.end().is_none() {
            last = manner
                .next(random, &running(&machine), last, machine.places())
                .min(255);
            order.push(last as u8);
            let _ = machine.pick_in(call, last);
        }
        order
    };
    let named = |&manner: &Manner| (format!("{:?}", manner), to_the_end(manner));
    MANNERS.iter().map(named).collect()
}

/// Slots with a running task.
fn running(machine: &Machine) -> Vec<usize> {
    let slots = 0..machine.places();
    slots
        .filter(|&slot| machine.slots()[slot].status == Status::Running)
        .collect()
}

/// What the model says to a case.
fn replayed(case: &ReplayCase) -> Result<Replayed, u8> {
    let job = Job::parse(&case.job)?;
    let mut machine = job.start()?;
    let call = Call::new(&job.program, &job.words)?;
    if case.state_len != STATE_BYTES {
        return Err(question::BUFFER);
    }
    let picks = case.order.iter();
    let refused = picks
        .filter_map(|&slot| machine.pick_in(call, slot.into()).err())
        .collect();
    Ok(Replayed { machine, refused })
}

/// Puts a case to both; `salt` places and fills the buffers. The error says in words how the two
/// differ.
pub fn compare(case: &ReplayCase, salt: u64) -> Result<Result<Replayed, u8>, String> {
    let expected = replayed(case);
    let expected_answer = expected.as_ref().err().copied().unwrap_or(0);

    let mut lent_job = Lent::holding(&case.job, salt);
    let mut lent_order = Lent::holding(&case.order, salt_of(salt, 1));
    let mut lent_state = Lent::new(case.state_len, salt_of(salt, 2));
    let answer = engine::replay(lent_job.slice(), lent_order.slice(), lent_state.slice());
    if answer != expected_answer {
        return Err(format!(
            "the model answers {}, the engine {}",
            expected_answer, answer
        ));
    }
    match &expected {
        Ok(replayed) => {
            let expected = state::bytes(&replayed.machine);
            let found = lent_state.slice();
            if let Some(what) = numbers::first_difference(&expected, found, state::meaning) {
                return Err(what);
            }
        }
        Err(_) if !lent_state.is_untouched() => {
            return Err(format!("a call refused {} changed the state", answer));
        }
        Err(_) => {}
    }
    if lent_job.slice() != case.job || lent_order.slice() != case.order {
        return Err("the job or the order was changed".to_string());
    }
    if [&lent_job, &lent_order, &lent_state]
        .iter()
        .any(|lent| !lent.margins_are_untouched())
    {
        return Err("bytes outside the lent buffers were changed".to_string());
    }
    Ok(expected)
}

/// The engine's state after this order of an accepted job, once it was compared with the model's.
pub fn state_after(input: &JobInput, order: &[u8]) -> Vec<u8> {
    let case = ReplayCase {
        job: input.bytes(),
        order: order.to_vec(),
        state_len: STATE_BYTES,
    };
    if let Err(what) = compare(&case, 0) {
        panic!("order {:?}: {}", order, what);
    }
    let mut state = vec![0xa5; STATE_BYTES];
    assert_eq!(engine::replay(&case.job, &case.order, &mut state), 0);
    state
}

/// Runs one case.
pub fn run_case(seed: u64, number: u64, coverage: &mut ReplayCoverage) -> Result<(), String> {
    let case = case(seed, number);
    let salt = Random::new(seed.rotate_left(16), number).bits();
    let answer = compare(&case, salt).map_err(|what| {
        let beside = format!("order {:?}, state of {} bytes", case.order, case.state_len);
        difference("soak_replay", seed, number, &what, &beside, &case.job)
    })?;
    coverage.count(&case, &answer);
    Ok(())
}

/// Runs the cases of these numbers. What differs ends it.
pub fn run(seed: u64, numbers: Range<u64>) -> Result<Counts, String> {
    shares::run(numbers, |number, coverage| run_case(seed, number, coverage))
        .map_err(|(_, what)| what)
}
