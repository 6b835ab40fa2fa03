//! Jobs with lanes and budgets of rounds put to the engine's dispatcher, to the model's, and to the
//! rounds pick by pick.

use crate::budgets::{damaged, length};
use crate::counts::Counts;
use crate::dispatch_coverage::DispatchCoverage;
use crate::jobs::{self, difference, refused};
use crate::lent::{salt_of, Lent};
use crate::numbers::number_at;
use crate::random::Random;
use crate::rounds::{walk, Walk};
use crate::{numbers, report, shares};
use engine::{DISPATCH_BYTES, REPORT_BYTES};
use model::job::{Report, BUDGET};
use model::{Job, MAX_LANES};
use std::ops::Range;

/// Jobs that have not ended within so many picks are taken for endless.
const ENDLESS: u64 = 3_000;

/// Lanes that are refused.
pub const WRONG_LANES: [u64; 6] = [0, 9, 10, 256 + 1, (1 << 32) + 2, u64::MAX];

/// What a dispatch is handed besides its job.
#[derive(Clone, Copy, Debug)]
pub struct Rounds {
    pub lanes: u64,
    pub budget: u64,
    pub report_len: usize,
}

impl Rounds {
    /// With a report of the right length.
    pub fn new(lanes: u64, budget: u64) -> Self {
        Rounds {
            lanes,
            budget,
            report_len: DISPATCH_BYTES,
        }
    }
}

/// A job, and the dispatches that it is put to.
pub struct DispatchCase {
    pub job: Vec<u8>,
    pub dispatches: Vec<Rounds>,
}

/// The case of this number under this seed.
pub fn case(seed: u64, number: u64) -> DispatchCase {
    // Not the numbers that the job was made from.
    let random = &mut Random::new(!seed, number);
    let job = match random.below(6) {
        0 => refused(seed, number).bytes,
        1 => damaged(jobs::job(seed, number).input.bytes(), random),
        _ => jobs::job(seed, number).input.bytes(),
    };
    let mut dispatches = Vec::new();
    if let Ok(report) = model::job::run(&job, ENDLESS) {
        for lanes in 1..=MAX_LANES {
            let budgets = budgets(&job, lanes, &report, random);
            dispatches.extend(budgets.map(|budget| Rounds::new(lanes, budget)));
        }
    }
    for _ in 0..4 {
        dispatches.push(wrong(random));
    }
    DispatchCase { job, dispatches }
}

/// None, one, a few, and, of a job that ends, about as many as it takes.
fn budgets(job: &[u8], lanes: u64, report: &Report, random: &mut Random) -> [u64; 4] {
    let few = random.between(2, 20) as u64;
    let enough = match report.end {
        Some(_) => {
            let dispatched = model::job::dispatch(job, lanes, u64::MAX);
            let (_, rounds) = dispatched.expect("the job is accepted");
            random.pick(&[rounds, rounds, rounds - 1, rounds + 1, BUDGET, u64::MAX])
        }
        None => random.below(ENDLESS as usize) as u64,
    };
    [0, 1, few, enough]
}

/// With the lanes wrong, the report's length, both, or by chance neither.
fn wrong(random: &mut Random) -> Rounds {
    let lanes = if random.one_in(2) {
        random.pick(&WRONG_LANES)
    } else {
        random.between(1, MAX_LANES as usize) as u64
    };
    let report_len = if random.one_in(2) {
        random.pick(&[REPORT_BYTES, DISPATCH_BYTES - 1, DISPATCH_BYTES + 1])
    } else {
        length(DISPATCH_BYTES, random)
    };
    Rounds {
        lanes,
        budget: random.pick(&[0, 1, 10]),
        report_len,
    }
}

/// Puts a dispatch to both; `salt` places and fills the buffers. Hands back the rounds pick by pick,
/// or the refusal; the error says in words what differs or doesn't hold.
pub fn compare(job: &[u8], rounds: Rounds, salt: u64) -> Result<Result<Walk, u8>, String> {
    let Rounds {
        lanes,
        budget,
        report_len,
    } = rounds;
    let mut expected = vec![0; report_len];
    let models = model::job::dispatch_into(job, lanes, budget, &mut expected);

    let mut lent_job = Lent::holding(job, salt);
    let mut lent = Lent::new(report_len, salt_of(salt, 1));
    let answer = engine::job_dispatch(lent_job.slice(), lanes, budget, lent.slice());
    ensure!(
        answer == models,
        "the model answers {:?}, the engine {:?}",
        models,
        answer
    );
    ensure!(lent_job.slice() == job, "the job was changed");
    ensure!(
        lent_job.margins_are_untouched(),
        "bytes beside the job were changed"
    );
    ensure!(
        lent.margins_are_untouched(),
        "bytes beside the report were changed"
    );
    if let Err(number) = answer {
        ensure!(
            lent.is_untouched(),
            "a dispatch refused {} changed the report",
            number
        );
        return Ok(Err(number));
    }

    let found = lent.slice();
    if let Some(what) = numbers::first_difference(&expected, found, report::meaning) {
        return Err(format!("report, {}", what));
    }
    let walk = walk_beside(job, rounds, found)?;
    if walk.machine.end().is_some() {
        check_bounds(lanes, found)?;
        check_result(job, found)?;
    }
    Ok(Ok(walk))
}

/// The rounds pick by pick, which leave what this report says.
fn walk_beside(job: &[u8], rounds: Rounds, found: &[u8]) -> Result<Walk, String> {
    let job = Job::parse(job).expect("the job is accepted");
    let walk = walk(&job, rounds.lanes as usize, rounds.budget);
    let mut expected = report::bytes(&walk.report());
    expected.extend(walk.rounds.to_le_bytes());
    match numbers::first_difference(&expected, found, report::meaning) {
        None => Ok(walk),
        Some(what) => Err(format!("pick by pick, {}", what)),
    }
}

/// What document 02 wants of the rounds of a job that ended.
fn check_bounds(lanes: u64, found: &[u8]) -> Result<(), String> {
    let [work, span, rounds] =
        [report::WORK, report::SPAN, report::ROUNDS].map(|index| number_at(found, index));
    let counts = format!(
        "{} lanes, {} rounds, work {}, span {}",
        lanes, rounds, work, span
    );
    ensure!(
        lanes * rounds <= work + (lanes - 1) * span,
        "too many rounds: {}",
        counts
    );
    // A task has one lane a round, and a lane one task.
    ensure!(span <= rounds, "fewer rounds than span: {}", counts);
    ensure!(work <= lanes * rounds, "more picks than lanes: {}", counts);
    ensure!(
        lanes > 1 || rounds == work,
        "one lane, and not a pick a round: {}",
        counts
    );
    Ok(())
}

/// A job that ended comes to what it comes to in a run, picks included.
fn check_result(job: &[u8], found: &[u8]) -> Result<(), String> {
    let mut run = [0; REPORT_BYTES];
    let answer = engine::job_run(job, u64::MAX, &mut run);
    ensure!(answer.is_ok(), "a run answers {:?}", answer);
    let front =
        (0..report::NUMBERS).find(|&index| number_at(&run, index) != number_at(found, index));
    match front {
        None => Ok(()),
        Some(index) => Err(format!(
            "{}: {} after a run, {} after rounds",
            report::meaning(index),
            number_at(&run, index),
            number_at(found, index)
        )),
    }
}

/// Runs one case.
pub fn run_case(seed: u64, number: u64, coverage: &mut DispatchCoverage) -> Result<(), String> {
    let DispatchCase { job, dispatches } = case(seed, number);
    let random = &mut Random::new(seed.rotate_left(16), number);
    for rounds in dispatches {
        let walked = compare(&job, rounds, random.bits()).map_err(|what| {
            let beside = format!("{:?}", rounds);
            difference("soak_dispatch", seed, number, &what, &beside, &job)
        })?;
        coverage.count(&job, rounds, &walked);
    }
    coverage.count_job();
    Ok(())
}

/// Runs the cases of these numbers. What differs ends it.
pub fn run(seed: u64, numbers: Range<u64>) -> Result<Counts, String> {
    shares::run(numbers, |number, coverage| run_case(seed, number, coverage))
        .map_err(|(_, what)| what)
}
