//! Jobs with budgets of picks put to the engine's job run and job text, and to the model.

use crate::budgets_coverage::BudgetsCoverage;
use crate::counts::Counts;
use crate::jobs::{difference, job, refused};
use crate::lent::{salt_of, Lent};
use crate::random::Random;
use crate::{numbers, report, shares};
use engine::{REPORT_BYTES, TEXT_BYTES};
use model::job::{Report, BUDGET};
use model::question;
use std::ops::Range;

/// Jobs that have not ended within so many picks are taken for endless.
const ENDLESS: u64 = 6_000;

/// What a job run and a job text are handed.
pub struct BudgetCase {
    pub job: Vec<u8>,
    pub budget: u64,
    pub report_len: usize,
    pub text_len: usize,
}

impl BudgetCase {
    /// With buffers of the right lengths.
    pub fn new(job: Vec<u8>, budget: u64) -> Self {
        BudgetCase {
            job,
            budget,
            report_len: REPORT_BYTES,
            text_len: TEXT_BYTES,
        }
    }
}

/// The case of this number under this seed.
pub fn case(seed: u64, number: u64) -> BudgetCase {
    // Not the numbers that the job was made from.
    let random = &mut Random::new(!seed, number);
    let job = match random.below(6) {
        0 => refused(seed, number).bytes,
        1 => damaged(job(seed, number).input.bytes(), random),
        _ => job(seed, number).input.bytes(),
    };
    let budget = budget(&job, random);
    BudgetCase {
        job,
        budget,
        report_len: length(REPORT_BYTES, random),
        text_len: length(TEXT_BYTES, random),
    }
}

/// With some bytes changed, mostly so that it is refused.
pub(crate) fn damaged(mut job: Vec<u8>, random: &mut Random) -> Vec<u8> {
    for _ in 0..random.pick(&[1, 1, 2, 4]) {
        let at = random.below(job.len());
        job[at] = match random.below(3) {
            0 => job[at] ^ 1 << random.below(8),
            1 => job[at].wrapping_add(random.pick(&[1, 255])),
            _ => random.byte(),
        };
    }
    job
}

/// Small ones; of a job that ends, others around the picks that it takes.
fn budget(job: &[u8], random: &mut Random) -> u64 {
    let small = match random.below(4) {
        0 => 0,
        1 => 1,
        2 => random.below(20) as u64,
        _ => random.below(2_000) as u64,
    };
    match model::job::run(job, ENDLESS) {
        _ if random.one_in(3) => small,
        Err(_) => random.pick(&[small, BUDGET, u64::MAX]),
        Ok(Report {
            end: Some(_),
            picks,
            ..
        }) => random.pick(&[picks, picks, picks - 1, picks + 1, BUDGET, u64::MAX]),
        // These take a thousand times as long.
        Ok(_) if random.one_in(16) => BUDGET,
        Ok(_) => random.below(ENDLESS as usize) as u64,
    }
}

/// The right length mostly.
pub(crate) fn length(right: usize, random: &mut Random) -> usize {
    if random.one_in(16) {
        random.pick(&[0, 1, right - 8, right - 1, right + 1, right + 8, 2 * right])
    } else {
        right
    }
}

/// Puts a case to both; `salt` places and fills the buffers. Hands back the model's report, before
/// any question about the buffers; the error says in words how the two differ.
pub fn compare(case: &BudgetCase, salt: u64) -> Result<Result<Report, u8>, String> {
    let expected = model::job::run(&case.job, case.budget);
    let mut lent_job = Lent::holding(&case.job, salt);
    compare_report(case, &expected, &mut lent_job, salt_of(salt, 1))?;
    compare_text(case, &expected, &mut lent_job, salt_of(salt, 2))?;
    if lent_job.slice() != case.job {
        return Err("the job was changed".to_string());
    }
    if !lent_job.margins_are_untouched() {
        return Err("bytes beside the job were changed".to_string());
    }
    Ok(expected)
}

fn compare_report(
    case: &BudgetCase,
    expected: &Result<Report, u8>,
    job: &mut Lent,
    salt: u64,
) -> Result<(), String> {
    let expected = match expected {
        Ok(_) if case.report_len != REPORT_BYTES => Err(question::BUFFER),
        Ok(report) => Ok(report),
        Err(refusal) => Err(*refusal),
    };
    let mut lent = Lent::new(case.report_len, salt);
    let answer = engine::job_run(job.slice(), case.budget, lent.slice());
    if answer != expected.map(|_| ()) {
        return Err(format!(
            "job run: the model answers {:?}, the engine {:?}",
            expected.map(|_| ()),
            answer
        ));
    }
    match expected {
        Ok(report) => {
            let expected = report::bytes(report);
            let found = lent.slice();
            if let Some(what) = numbers::first_difference(&expected, found, report::meaning) {
                return Err(format!("report, {}", what));
            }
        }
        Err(number) if !lent.is_untouched() => {
            return Err(format!("a job run refused {} changed the report", number));
        }
        Err(_) => {}
    }
    if !lent.margins_are_untouched() {
        return Err("bytes beside the report were changed".to_string());
    }
    Ok(())
}

fn compare_text(
    case: &BudgetCase,
    expected: &Result<Report, u8>,
    job: &mut Lent,
    salt: u64,
) -> Result<(), String> {
    let expected = if case.text_len == TEXT_BYTES {
        model::job::text_of(expected)
    } else {
        String::new()
    };
    let mut lent = Lent::new(case.text_len, salt);
    let length = engine::job_text(job.slice(), case.budget, lent.slice());
    if length != expected.len() as u64 {
        return Err(format!(
            "a text of {} bytes, the engine's has {}",
            expected.len(),
            length
        ));
    }
    let text = &lent.slice()[..expected.len()];
    if text != expected.as_bytes() {
        return Err(format!(
            "the text {:?}, the engine's is {:?}",
            expected,
            String::from_utf8_lossy(text)
        ));
    }
    if !lent.is_untouched_from(expected.len()) || !lent.margins_are_untouched() {
        return Err("bytes beside the text were changed".to_string());
    }
    Ok(())
}

/// More for a job that took so many picks: all but the last, and two below. So one evaluation is cut
/// at several places.
fn smaller(picks: u64, random: &mut Random) -> [u64; 3] {
    let below = picks.min(ENDLESS);
    let mut cut = || random.below(below as usize + 1) as u64;
    [below.saturating_sub(1), cut(), cut()]
}

/// Runs one case; where the job is accepted, also with smaller budgets.
pub fn run_case(seed: u64, number: u64, coverage: &mut BudgetsCoverage) -> Result<(), String> {
    let mut case = case(seed, number);
    let random = &mut Random::new(seed.rotate_left(16), number);
    let report = compare_case(seed, number, &case, random.bits())?;
    coverage.count(&case, &report);
    if let Ok(report) = report {
        for budget in smaller(report.picks, random) {
            case.budget = budget;
            if let Ok(report) = compare_case(seed, number, &case, random.bits())? {
                coverage.count_again(&report);
            }
        }
    }
    Ok(())
}

/// `compare`; the error says which case it was.
fn compare_case(
    seed: u64,
    number: u64,
    case: &BudgetCase,
    salt: u64,
) -> Result<Result<Report, u8>, String> {
    compare(case, salt).map_err(|what| {
        let beside = format!(
            "budget {}, report of {} bytes, text of {} bytes",
            case.budget, case.report_len, case.text_len
        );
        difference("soak_jobs", seed, number, &what, &beside, &case.job)
    })
}

/// Runs the cases of these numbers. What differs ends it.
pub fn run(seed: u64, numbers: Range<u64>) -> Result<Counts, String> {
    shares::run(numbers, |number, coverage| run_case(seed, number, coverage))
        .map_err(|(_, what)| what)
}
