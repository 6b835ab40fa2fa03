//! Orders of picks, and what document 01 says of every one of them, tried on the model's machine
//! against its plain evaluation.

mod order;

use crate::counts::Counts;
use crate::job_coverage::JobCoverage;
use crate::jobs::{job, JobCase};
use crate::random::Random;
use crate::shares;
use model::plain::evaluate;
use model::Job;
use order::{Order, LIMIT};
use std::ops::Range;

/// How an order chooses the next slot.
#[derive(Clone, Copy, Debug, PartialEq, Eq)]
pub(crate) enum Manner {
    /// One of the running tasks.
    AnyRunning,
    /// Half the time any number, so that picks are refused.
    AnyNumber,
    Lowest,
    Highest,
    /// The same task for a while.
    Bursts,
}

pub(crate) const MANNERS: [Manner; 5] = [
    Manner::AnyRunning,
    Manner::AnyNumber,
    Manner::Lowest,
    Manner::Highest,
    Manner::Bursts,
];

impl Manner {
    /// The next slot to pick; `running` is not empty.
    pub(crate) fn next(
        self,
        random: &mut Random,
        running: &[usize],
        last: usize,
        places: usize,
    ) -> usize {
        match self {
            Manner::AnyNumber if random.one_in(2) => any_number(random, places),
            Manner::AnyRunning | Manner::AnyNumber => random.pick(running),
            Manner::Lowest => running[0],
            Manner::Highest => running[running.len() - 1],
            Manner::Bursts if running.contains(&last) && !random.one_in(20) => last,
            Manner::Bursts => random.pick(running),
        }
    }
}

/// A slot's number mostly.
pub(crate) fn any_number(random: &mut Random, places: usize) -> usize {
    match random.below(16) {
        0 => random.pick(&[places, places + 1, 64, 255, usize::MAX]),
        _ => random.below(places),
    }
}

/// Two orders of one job, and runs of it. The error says in words what does not hold.
pub fn check(
    case: &JobCase,
    random: &mut Random,
    coverage: &mut JobCoverage,
) -> Result<(), String> {
    let job = Job::parse(&case.input.bytes())
        .map_err(|number| format!("the job's bytes were refused {}", number))?;
    let expected = evaluate(&job, LIMIT);
    let expected = expected.as_ref();

    let first = random.below(MANNERS.len());
    let second = (first + random.between(1, MANNERS.len() - 1)) % MANNERS.len();
    let mut one = Order::new(&job, expected)?;
    one.complete(MANNERS[first], random, Some(coverage))
        .map_err(|what| format!("{:?}: {}", MANNERS[first], what))?;
    let mut other = Order::new(&job, expected)?;
    other
        .complete(MANNERS[second], random, None)
        .map_err(|what| format!("{:?}: {}", MANNERS[second], what))?;
    if expected.is_some() {
        ensure!(
            one.machine == other.machine,
            "{:?} and {:?} leave different states",
            MANNERS[first],
            MANNERS[second]
        );
        ensure!(
            one.picks == other.picks,
            "{:?} and {:?} pick slots {:?} and {:?} times",
            MANNERS[first],
            MANNERS[second],
            one.picks,
            other.picks
        );
        ensure!(
            one.deepest == other.deepest,
            "{:?} and {:?} go to depths {} and {}",
            MANNERS[first],
            MANNERS[second],
            one.deepest,
            other.deepest
        );
    }
    Order::new(&job, expected)?
        .complete_by_runs(random)
        .map_err(|what| format!("runs: {}", what))?;
    coverage.count_job(case, expected, one.deepest);
    Ok(())
}

/// Runs one job.
pub fn run_case(seed: u64, number: u64, coverage: &mut JobCoverage) -> Result<(), String> {
    let case = job(seed, number);
    // Not the numbers that the job was made from.
    let random = &mut Random::new(!seed, number);
    check(&case, random, coverage).map_err(|what| {
        format!(
            "seed {} job {}, {:?}: {}\n\
             P {}, interval {}, registers {:?}, words {:?}\n\
             image {:02x?}\n\
             again: cargo run --release --bin soak_orders -- 1 {} {}",
            seed,
            number,
            case.make,
            what,
            case.input.places,
            case.input.interval,
            case.input.registers,
            case.input.words,
            case.input.image,
            seed,
            number
        )
    })
}

/// Runs the jobs of these numbers. What does not hold ends it.
pub fn run(seed: u64, numbers: Range<u64>) -> Result<Counts, String> {
    shares::run(numbers, |number, coverage| run_case(seed, number, coverage))
        .map_err(|(_, what)| what)
}
