//! What a run of dispatches has covered, and what it ought to.

use crate::counts::Counts;
use crate::dispatch::{Rounds, WRONG_LANES};
use crate::names::{
    end, ends, is_version_before_counts, job_version, version, VERSION_BEFORE_COUNTS,
};
use crate::rounds::{Event, Walk, EVENTS};
use engine::DISPATCH_BYTES;
use model::{question, MAX_LANES, VERSIONS};

/// Everything that can be met ought to be.
pub struct DispatchCoverage {
    met: Counts,
}

const END_SPENT: &str = "end spent";
const SPENT_AT_ONCE: &str = "spent, budget 0";
const SPENT_LAST: &str = "spent, one round before the end";
const SPENT: &str = "spent, more rounds before the end";
const ENDED_LAST: &str = "ended on the budget's last round";
const ENDED: &str = "ended before the budget's last round";
/// Here the rounds' bound says more than the work.
const ENDED_PARALLEL: &str = "ended with more work than span, several lanes";

const NAMES: [&str; 6] = [
    SPENT_AT_ONCE,
    SPENT_LAST,
    SPENT,
    ENDED_LAST,
    ENDED,
    ENDED_PARALLEL,
];

/// Of reports: a run's, and the nearest.
const LENGTHS: [usize; 3] = [424, 431, 433];

fn answer(number: u8) -> String {
    format!("answer {:2}", number)
}

/// A later question would be answered with no too.
fn before(number: u8, later: u8) -> String {
    format!("refused {} before {}", number, later)
}

fn with_lanes(what: &str, lanes: u64) -> String {
    format!("{}, lanes {}", what, lanes)
}

fn of_length(length: usize) -> String {
    format!("a report of {} bytes left as it was", length)
}

fn event_name(event: Event) -> &'static str {
    match event {
        Event::Full => "round with a task for every lane",
        Event::Over => "round with tasks left over",
        Event::Short => "round with lanes to spare",
        Event::ForkThenPick => "fork before another pick of its round",
        Event::ForkWithLaneToSpare => "fork in a round with lanes to spare",
        Event::JoinThenPick => "join before another pick of its round",
        Event::JoinWithLaneToSpare => "join in a round with lanes to spare",
        Event::EndAlone => "end by the only pick of its round",
        Event::EndAmong => "end by the last of several picks",
    }
}

/// What can be answered before 15. Sixteen registers are always there.
fn refusals() -> impl Iterator<Item = u8> {
    (question::HEADER..=question::INTERVAL).chain([question::WORDS])
}

impl Default for DispatchCoverage {
    fn default() -> Self {
        let later = [question::BUFFER, question::LANES];
        let mut names: Vec<String> = [0].into_iter().chain(later).map(answer).collect();
        for number in refusals() {
            names.push(answer(number));
            names.extend(later.map(|later| before(number, later)));
        }
        names.push(before(question::BUFFER, question::LANES));
        names.extend(WRONG_LANES.map(|lanes| with_lanes("refused", lanes)));
        names.extend(LENGTHS.map(of_length));
        names.extend(ends(END_SPENT));
        names.extend(NAMES.map(String::from));
        names.extend(VERSIONS.map(version));
        names.push(VERSION_BEFORE_COUNTS.to_string());
        for lanes in 1..=MAX_LANES {
            let events = EVENTS
                .into_iter()
                .filter(|event| lanes > 1 || event.needs_no_second_lane());
            names.extend(events.map(|event| with_lanes(event_name(event), lanes)));
        }
        DispatchCoverage {
            met: Counts::of("jobs", names),
        }
    }
}

impl DispatchCoverage {
    pub fn count_job(&mut self) {
        self.met.cases += 1;
    }

    pub fn count(&mut self, job: &[u8], rounds: Rounds, walked: &Result<Walk, u8>) {
        self.met.sum("dispatches", 1);
        let number = walked.as_ref().err().copied().unwrap_or(0);
        self.met.meet_listed(&answer(number));
        if is_version_before_counts(job, number) {
            self.met.meet_listed(VERSION_BEFORE_COUNTS);
        }
        match walked {
            Ok(walk) => self.count_walk(job, rounds, walk),
            Err(number) => self.count_refusal(*number, rounds),
        }
    }

    fn count_refusal(&mut self, number: u8, rounds: Rounds) {
        if number == question::LANES {
            let name = with_lanes("refused", rounds.lanes);
            return self.met.meet_listed(&name);
        }
        if number == question::BUFFER {
            self.met.meet(&of_length(rounds.report_len));
        } else if rounds.report_len != DISPATCH_BYTES {
            self.met.meet_listed(&before(number, question::BUFFER));
        }
        if WRONG_LANES.contains(&rounds.lanes) {
            self.met.meet_listed(&before(number, question::LANES));
        }
    }

    fn count_walk(&mut self, job: &[u8], rounds: Rounds, walk: &Walk) {
        let Rounds { lanes, budget, .. } = rounds;
        let machine = &walk.machine;
        self.met.meet_listed(&job_version(job));
        self.met.sum("rounds", walk.rounds);
        self.met.sum("picks", machine.work().into());
        self.met.meet_listed(&end(machine.end(), END_SPENT));
        self.met.meet_listed(match machine.end() {
            None if budget == 0 => SPENT_AT_ONCE,
            None if ends_with_one_more(job, rounds) => SPENT_LAST,
            None => SPENT,
            Some(_) if walk.rounds == budget => ENDED_LAST,
            Some(_) => ENDED,
        });
        if machine.end().is_some() && lanes > 1 && machine.work() > machine.last_task().span {
            self.met.meet_listed(ENDED_PARALLEL);
        }
        for event in EVENTS {
            let name = with_lanes(event_name(event), lanes);
            self.met.meet_times(&name, walk.times(event));
        }
    }
}

/// Whether the job ends with one round more than its budget.
fn ends_with_one_more(job: &[u8], rounds: Rounds) -> bool {
    let dispatched = model::job::dispatch(job, rounds.lanes, rounds.budget + 1);
    dispatched.map_or(false, |(report, _)| report.end.is_some())
}

impl From<DispatchCoverage> for Counts {
    fn from(coverage: DispatchCoverage) -> Self {
        coverage.met
    }
}
