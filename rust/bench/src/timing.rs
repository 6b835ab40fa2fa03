//! Two functions timed in turns in one process, in processor time. Time that other processes get is
//! not counted; what they take of the caches and of a core's other thread is, and moves the ratios.

use std::time::Duration;
use std::{mem, ptr};

/// What the compiler can't see through. `std::hint::black_box` needs Rust 1.66.
pub fn black_box<T>(value: T) -> T {
    // SAFETY: the value is read once more and the first one is forgotten, so it moves.
    unsafe {
        let moved = ptr::read_volatile(&value);
        mem::forget(value);
        moved
    }
}

/// As C has it on 64-bit Linux.
#[repr(C)]
struct Timespec {
    seconds: i64,
    nanoseconds: i64,
}

extern "C" {
    fn clock_gettime(clock: i32, time: *mut Timespec) -> i32;
}

/// The processor time of this thread so far.
fn processor_time() -> Duration {
    const CLOCK_THREAD_CPUTIME_ID: i32 = 3;
    let mut time = Timespec {
        seconds: 0,
        nanoseconds: 0,
    };
    // SAFETY: `time` is laid out as the function expects, and lives through the call.
    let status = unsafe { clock_gettime(CLOCK_THREAD_CPUTIME_ID, &mut time) };
    assert_eq!(status, 0, "the thread's clock can be read");
    Duration::new(time.seconds as u64, time.nanoseconds as u32)
}

pub fn timed(call: impl FnOnce()) -> Duration {
    let start = processor_time();
    call();
    processor_time() - start
}

fn median<T: PartialOrd + Copy>(mut values: Vec<T>) -> T {
    values.sort_by(|a, b| a.partial_cmp(b).expect("times are numbers"));
    values[values.len() / 2]
}

/// Medians of the times in seconds, and of the rounds' ratios.
pub struct Times {
    /// Of the peer or the model.
    pub other: f64,
    pub engine: f64,
    /// The other's time divided by the engine's in the same round.
    pub ratio: f64,
}

/// Takes the times of the two in turns, the one and the other first.
pub fn in_turns(
    rounds: usize,
    mut other: impl FnMut() -> Duration,
    mut engine: impl FnMut() -> Duration,
) -> Times {
    let mut other_times = Vec::new();
    let mut engine_times = Vec::new();
    for round in 0..rounds {
        if round % 2 == 0 {
            other_times.push(other().as_secs_f64());
            engine_times.push(engine().as_secs_f64());
        } else {
            engine_times.push(engine().as_secs_f64());
            other_times.push(other().as_secs_f64());
        }
    }
    let ratios = other_times.iter().zip(&engine_times).map(|(o, e)| o / e);
    Times {
        ratio: median(ratios.collect()),
        other: median(other_times),
        engine: median(engine_times),
    }
}

/// The same for calls so short that many are timed as one.
pub fn calls_in_turns(
    rounds: usize,
    calls: u32,
    mut other: impl FnMut(),
    mut engine: impl FnMut(),
) -> Times {
    fn time_of_one(calls: u32, call: &mut impl FnMut()) -> Duration {
        timed(|| (0..calls).for_each(|_| call())) / calls
    }
    in_turns(
        rounds,
        || time_of_one(calls, &mut other),
        || time_of_one(calls, &mut engine),
    )
}

/// Which of the two the engine is beside.
#[derive(Clone, Copy)]
pub enum Beside {
    Peer,
    Model,
}

impl Beside {
    pub fn name(self) -> &'static str {
        match self {
            Beside::Peer => "peer",
            Beside::Model => "model",
        }
    }
}

/// Prints a line's times and its ratio, with what was timed.
pub fn print(name: &str, what: &str, beside: Beside, times: &Times) {
    println!(
        "{:12} {} {:9.2} µs, engine {:9.2} µs: {}",
        name,
        beside.name(),
        times.other * 1e6,
        times.engine * 1e6,
        what
    );
    println!("ratio {} {:.2}", name, times.ratio);
}
