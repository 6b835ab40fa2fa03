//! Peer and model on seeded jobs, from bytes to report, each with several budgets: none spent, the
//! last one that is, and every one of a short job. So there each instruction that is evaluated is once
//! the first beyond the budget: in the middle of a block, a fork, the join of either side, a jump.
//!
//! What the jobs do is counted in an order of their picks on the model: faults at every depth, calls
//! and returns, full and empty stacks of parents and children, pops across forks, up to eight pairs.

use checks::counts::Counts;
use checks::job_coverage::JobCoverage;
use checks::jobs::{job, refused};
use checks::orders;
use checks::random::Random;
use checks::shares::{expect_all_met, run};
use model::job::Report;
use model::opcode::{FORK, JOIN, POP, PUSH};
use model::{fault, question, End, Program, Value, VERSIONS};

const SEED: u64 = 0x7065_6572;
const JOBS: u64 = 40_000;

/// Jobs that have not ended within so many picks are taken for endless.
const ENDLESS: u64 = 6_000;
/// Jobs up to this work get every budget.
const SHORT: u64 = 40;
/// Those that end with a fault of stacks, too: a full one takes some picks.
const SHORT_WITH_STACKS: u64 = 160;

struct Coverage {
    met: Counts,
    /// Of the same jobs, as far as they are neither damaged nor refused.
    jobs: JobCoverage,
}

fn answer(number: u8) -> String {
    format!("job answers {:2}", number)
}

fn end(end: Option<End>) -> String {
    match end {
        None => "end spent".to_string(),
        Some(End::Halt) => "end halt".to_string(),
        Some(End::Fault(number)) => format!("end fault {}", number),
    }
}

fn kind(value: Value) -> &'static str {
    match value {
        Value::Int(_) => "final integer",
        Value::Label(_) => "final label",
        Value::Record(_) => "final record",
    }
}

const KINDS: [&str; 3] = ["final integer", "final label", "final record"];
const BY_ONE: &str = "spent, one pick before the end";
const EVERY_BUDGET: &str = "every budget of a short job";
const WITH_FORKS: &str = "every budget of a short job with a fork and a join";
const WITH_STACKS: &str = "every budget of a short job with a push and a pop";
const LONG: &str = "not ended within the longest run";

fn every_budget_of(number: u8) -> String {
    format!("every budget of a job that ends with fault {}", number)
}

fn version(version: u16) -> String {
    format!("accepted, version {}", version)
}

impl Default for Coverage {
    fn default() -> Self {
        let refusals = (question::HEADER..=question::INTERVAL).chain([question::WORDS]);
        let mut names: Vec<String> = refusals.map(answer).collect();
        let faults = fault::ALL.map(|number| Some(End::Fault(number)));
        names.extend([None, Some(End::Halt)].into_iter().chain(faults).map(end));
        names.extend(KINDS.map(String::from));
        names.extend([BY_ONE, EVERY_BUDGET, WITH_FORKS, WITH_STACKS, LONG].map(String::from));
        names.extend(fault::ALL.map(every_budget_of));
        names.extend(VERSIONS.map(version));
        Coverage {
            met: Counts::of("jobs", names),
            jobs: JobCoverage::default(),
        }
    }
}

impl From<Coverage> for Counts {
    fn from(coverage: Coverage) -> Self {
        let mut met = coverage.met;
        let mut jobs = Counts::from(coverage.jobs);
        jobs.cases = 0;
        met.add(&jobs);
        met
    }
}

/// What both come to, from bytes to report and to the report's bytes.
fn compare(job: &[u8], budget: u64) -> Result<Result<Report, u8>, String> {
    let expected = model::job::run(job, budget);
    let found = peer::run(job, budget);
    if found != expected {
        return Err(format!(
            "budget {budget}: the model comes to {expected:?}, the peer to {found:?}"
        ));
    }
    let mut bytes = [0xa5; model::report::BYTES];
    let answer = peer::run_into(job, budget, &mut bytes);
    let as_expected = match &expected {
        Ok(report) => answer.is_ok() && bytes[..] == model::report::bytes(report)[..],
        Err(number) => answer == Err(*number) && bytes == [0xa5; model::report::BYTES],
    };
    if !as_expected {
        return Err(format!("budget {budget}: the report's bytes differ"));
    }
    Ok(expected)
}

fn program(job: &[u8]) -> Program {
    model::Job::parse(job).expect("the job is accepted").program
}

fn has_all(program: &Program, opcodes: [u8; 2]) -> bool {
    let has = |opcode| program.instructions.iter().any(|i| i.opcode == opcode);
    opcodes.into_iter().all(has)
}

fn is_short(report: &Report) -> bool {
    let is_of_stacks = matches!(report.end, Some(End::Fault(fault::FULL | fault::EMPTY)));
    let most = if is_of_stacks {
        SHORT_WITH_STACKS
    } else {
        SHORT
    };
    report.picks <= most
}

fn compare_every_budget(job: &[u8], report: &Report, met: &mut Counts) -> Result<(), String> {
    for budget in 0..report.picks {
        let _ = compare(job, budget)?;
    }
    met.meet(EVERY_BUDGET);
    let program = program(job);
    if has_all(&program, [FORK, JOIN]) && report.span < report.work {
        met.meet(WITH_FORKS);
    }
    if has_all(&program, [PUSH, POP]) {
        met.meet(WITH_STACKS);
    }
    if let Some(End::Fault(number)) = report.end {
        met.meet(&every_budget_of(number));
    }
    Ok(())
}

/// Budgets up to the job's end, and beyond.
fn compare_budgets(job: &[u8], random: &mut Random, met: &mut Counts) -> Result<(), String> {
    let report = match compare(job, ENDLESS)? {
        Err(number) => {
            met.meet(&answer(number));
            return Ok(());
        }
        Ok(report) => report,
    };
    met.meet(&version(program(job).version));
    met.meet(&end(report.end));
    met.sum("picks", report.picks);
    if report.end.is_none() {
        met.meet(LONG);
        let _ = compare(job, random.below(ENDLESS as usize) as u64)?;
        return Ok(());
    }
    for value in report.registers {
        met.meet(kind(value));
    }
    let _ = compare(job, u64::MAX)?;
    let _ = compare(job, report.picks)?;
    if compare(job, report.picks - 1)?.map_or(false, |report| report.end.is_none()) {
        met.meet(BY_ONE);
    }
    let _ = compare(job, random.below(report.picks as usize) as u64)?;
    if is_short(&report) {
        compare_every_budget(job, &report, met)?;
    }
    Ok(())
}

/// With some bytes changed: refused, or another program.
fn damaged(mut job: Vec<u8>, random: &mut Random) -> Vec<u8> {
    for _ in 0..random.pick(&[1, 1, 2, 4]) {
        let at = random.below(job.len());
        let any = random.byte();
        job[at] = random.pick(&[job[at] ^ 1, job[at].wrapping_add(1), any]);
    }
    job
}

fn run_case(number: u64, coverage: &mut Coverage) -> Result<(), String> {
    // Not the numbers that the job was made from.
    let random = &mut Random::new(!SEED, number);
    let case = job(SEED, number);
    let bytes = match random.below(6) {
        0 => refused(SEED, number).bytes,
        1 => damaged(case.input.bytes(), random),
        _ => {
            orders::check(&case, random, &mut coverage.jobs)?;
            case.input.bytes()
        }
    };
    coverage.met.cases += 1;
    compare_budgets(&bytes, random, &mut coverage.met)
        .map_err(|what| format!("seed {SEED} job {number}: {what}"))
}

#[test]
fn seeded_jobs() {
    expect_all_met(run(0..JOBS, run_case).map_err(|(_, what)| what), JOBS);
}
