//! Every export over buffers that end where a closed page begins, and over ones that begin where a
//! closed page ends: a call that reads or writes a byte beside one of them ends the process.
//!
//! What the process was doing then is the last line that this test printed: run it with `--nocapture`.

use checks::budgets::{self, BudgetCase};
use checks::dispatch::{self, Rounds};
use checks::guarded::Guarded;
use checks::lent::{salts, AT_END, AT_START};
use checks::replay::{self, ReplayCase};
use checks::steps::call::{Call, Door};
use checks::steps::damage::damage;
use checks::{compare, generate, jobs, random::Random};
use engine::{DISPATCH_BYTES, PROGRAM_BYTES, REPORT_BYTES, STATE_BYTES, TEXT_BYTES};
use std::os::unix::process::ExitStatusExt;
use std::process::Command;
use std::{env, ptr};

const SEED: u64 = 0x67_7561_7264_6564;
const CASES: u64 = 250;

/// Every combination of the two places for this many buffers.
fn places<const N: usize>() -> impl Iterator<Item = u64> {
    (0..1 << N).map(|places: u64| {
        let mut number = 0;
        salts([0; N].map(|_: u64| {
            number += 1;
            [AT_END, AT_START][(places >> (number - 1) & 1) as usize]
        }))
    })
}

fn expect<T>(seeded: u64, outcome: Result<T, String>) -> T {
    outcome.unwrap_or_else(|what| panic!("case {}: {}", seeded, what))
}

#[test]
fn every_combination_of_places() {
    let all: Vec<u64> = places::<2>().collect();
    assert_eq!(all, [0x20_0020, 0x20_0030, 0x30_0020, 0x30_0030]);
    assert_eq!(places::<4>().count(), 16);
}

#[test]
fn images() {
    for number in 0..4 * CASES {
        println!("image {}", number);
        let case = generate::case(SEED, number);
        for salt in places::<2>() {
            expect(number, compare::compare(&case.image, case.out_len, salt));
        }
    }
}

#[test]
fn replays() {
    for number in 0..CASES {
        println!("replay {}", number);
        let mut case = replay::case(SEED, number);
        case.order.truncate(60);
        for salt in places::<3>() {
            let _ = expect(number, replay::compare(&case, salt));
        }
    }
    // Nothing at all.
    let empty = ReplayCase {
        job: Vec::new(),
        order: Vec::new(),
        state_len: 0,
    };
    for salt in places::<3>() {
        let _ = expect(0, replay::compare(&empty, salt));
    }
}

#[test]
fn runs_and_texts_of_jobs() {
    for number in 0..CASES {
        println!("job {}", number);
        let mut case = budgets::case(SEED, number);
        case.budget = case.budget.min(5_000);
        for salt in places::<3>() {
            let _ = expect(number, budgets::compare(&case, salt));
        }
    }
    for length in 0..300 {
        let job = checks::hand::f(2).bytes();
        let mut case = BudgetCase::new(job[..length.min(job.len())].to_vec(), 20);
        case.report_len = [REPORT_BYTES, length][length % 2];
        case.text_len = [TEXT_BYTES, length][length % 2];
        for salt in places::<3>() {
            let _ = expect(length as u64, budgets::compare(&case, salt));
        }
    }
}

#[test]
fn dispatches_of_jobs() {
    for number in 0..CASES {
        println!("dispatched job {}", number);
        let case = dispatch::case(SEED, number);
        for rounds in case.dispatches {
            for salt in places::<2>() {
                let _ = expect(number, dispatch::compare(&case.job, rounds, salt));
            }
        }
    }
    for length in 0..300 {
        let job = checks::hand::f(2).bytes();
        let job = &job[..length.min(job.len())];
        let rounds = Rounds {
            report_len: [DISPATCH_BYTES, length][length % 2],
            ..Rounds::new(length as u64 % 10, 20)
        };
        for salt in places::<2>() {
            let _ = expect(length as u64, dispatch::compare(job, rounds, salt));
        }
    }
}

/// The call and then some with something wrong, in all places.
fn put(seeded: u64, random: &mut Random, call: &Call) -> Vec<Vec<u8>> {
    let in_all_places = |call: &Call| {
        println!("case {}: {}", seeded, call);
        let salts: Vec<u64> = match call.door {
            Door::Read | Door::Write => places::<2>().collect(),
            Door::Pick => places::<3>().collect(),
            Door::Start | Door::Run => places::<4>().collect(),
        };
        let mut answers = salts
            .into_iter()
            .map(|salt| expect(seeded, call.compare(salt)));
        answers.next_back().expect("there are places")
    };
    for _ in 0..3 {
        let mut wrong = call.clone();
        damage(random, &mut wrong);
        in_all_places(&wrong);
    }
    in_all_places(call).written
}

#[test]
fn steps() {
    for number in 0..CASES {
        let random = &mut Random::new(!SEED, number);
        let input = jobs::job(SEED, number).input;
        let read = Call::read(&input.image, vec![0; PROGRAM_BYTES]);
        let program = put(number, random, &read).remove(0);
        let write = Call::write(&program, vec![0; input.image.len()]);
        put(number, random, &write);
        let (registers, words) = (input.register_bytes(), input.word_bytes());
        let numbers = [input.places.into(), input.interval.into()];
        let start = Call::start(&program, numbers, &registers, &words, vec![0; STATE_BYTES]);
        let mut state = put(number, random, &start).remove(0);
        for _ in 0..4 {
            let slot = random.below(input.places.into()) as u64;
            put(
                number,
                random,
                &Call::pick(&program, &words, slot, &state.clone()),
            );
            let budget = random.below(30) as u64;
            let report = vec![0; REPORT_BYTES];
            let run = Call::run(&program, &words, budget, &state, report);
            let next = put(number, random, &run).remove(0);
            state = next;
        }
    }
}

/// Set in a process that is to touch a closed page.
const TOUCH: &str = "TOUCH_A_CLOSED_PAGE";

#[test]
#[ignore = "ends its process: a_touch_of_a_closed_page_ends_the_process starts it"]
fn touch() {
    let touched = env::var(TOUCH).expect("started for that");
    let mut memory = Guarded::new(100);
    let slice = memory.slice_mut();
    let (first, length) = (slice.as_mut_ptr(), slice.len());
    // SAFETY: none; the process is to be ended here.
    unsafe {
        match &touched[..] {
            "read before" => drop(ptr::read_volatile(first.wrapping_sub(1))),
            "write before" => ptr::write_volatile(first.wrapping_sub(1), 0),
            "read after" => drop(ptr::read_volatile(first.wrapping_add(length))),
            "write after" => ptr::write_volatile(first.wrapping_add(length), 0),
            _ => {}
        }
    }
}

#[test]
fn a_touch_of_a_closed_page_ends_the_process() {
    const SEGMENTATION_FAULT: i32 = 11;
    let signal = |touched: &str| {
        let tests = env::current_exe().expect("these tests");
        let run = Command::new(tests)
            .args(["--exact", "touch", "--ignored"])
            .env(TOUCH, touched)
            .output();
        run.expect("these tests run").status.signal()
    };
    for touched in ["read before", "write before", "read after", "write after"] {
        assert_eq!(signal(touched), Some(SEGMENTATION_FAULT), "{}", touched);
    }
    assert_eq!(signal("nothing"), None);
}
