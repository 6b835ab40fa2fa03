//! Many cases, on as many threads as the machine has processors.

use crate::counts::Counts;
use std::fmt::Display;
use std::ops::Range;
use std::sync::atomic::{AtomicU64, Ordering};
use std::sync::Mutex;
use std::thread;

/// Prints what a test's cases came to; panics at a difference, and when something was not met.
pub fn expect_all_met<E: Display>(outcome: Result<Counts, E>, cases: u64) {
    match outcome {
        Err(difference) => panic!("{}", difference),
        Ok(counts) => {
            println!("{}", counts);
            assert_eq!(counts.cases, cases);
            let missing = counts.missing();
            assert!(missing.is_empty(), "not covered: {}", missing.join("; "));
        }
    }
}

/// Runs the cases of these numbers, with a coverage for each thread. An error ends it; the one of
/// least number is handed back.
pub fn run<T: Default + Into<Counts>, E: Send>(
    numbers: Range<u64>,
    run_case: impl Fn(u64, &mut T) -> Result<(), E> + Sync,
) -> Result<Counts, (u64, E)> {
    const SHARE: u64 = 500;
    let next = AtomicU64::new(numbers.start);
    let total: Mutex<Counts> = Mutex::new(T::default().into());
    let first_error: Mutex<Option<(u64, E)>> = Mutex::new(None);
    let workers = thread::available_parallelism().map_or(1, |count| count.get());

    thread::scope(|scope| {
        for _ in 0..workers {
            scope.spawn(|| {
                let mut coverage = T::default();
                loop {
                    let from = next.fetch_add(SHARE, Ordering::Relaxed);
                    if from >= numbers.end {
                        break;
                    }
                    let to = numbers.end.min(from + SHARE);
                    let outcome = (from..to).try_for_each(|number| {
                        run_case(number, &mut coverage).map_err(|error| (number, error))
                    });
                    if let Err(error) = outcome {
                        // No further shares; those begun are finished, so the least is found.
                        next.store(numbers.end, Ordering::Relaxed);
                        let mut first = first_error.lock().unwrap();
                        match &*first {
                            Some(known) if known.0 < error.0 => {}
                            _ => *first = Some(error),
                        }
                        break;
                    }
                }
                total.lock().unwrap().add(&coverage.into());
            });
        }
    });

    match first_error.into_inner().unwrap() {
        Some(error) => Err(error),
        None => Ok(total.into_inner().unwrap()),
    }
}
