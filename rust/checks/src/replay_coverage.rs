//! What a run of replays has covered, and what it ought to.

use crate::counts::Counts;
use crate::names::{
    at_depth, end, ends, is_version_before_counts, job_version, kind, refused_pick, refused_picks,
    version, DEPTHS, KINDS, NOT_ENDED, VERSION_BEFORE_COUNTS,
};
use crate::replay::{ReplayCase, Replayed};
use model::{question, Slot, Status, VERSIONS};

/// Everything that can be met ought to be.
pub struct ReplayCoverage {
    met: Counts,
}

/// The state of a wrong length too, but 15 is put last.
const BEFORE_15: &str = "refused before 15";

/// Tasks of the states compared.
const RUNNING: &str = "running";
const WAITING: &str = "waiting";
const FAULTED: &str = "faulted";

fn answer(number: u8) -> String {
    format!("answer {}", number)
}

/// Registers of these tasks.
fn registers(kind: &str) -> String {
    format!("registers with {}s", kind)
}

/// Stacks of these tasks.
fn stack_entries(kind: &str) -> String {
    format!("stacks with {}s", kind)
}

fn with_stack(status: &str) -> String {
    format!("{} with a stack", status)
}

impl Default for ReplayCoverage {
    fn default() -> Self {
        // Sixteen registers are always there.
        let numbers = (0..=question::BUFFER).filter(|&number| number != question::REGISTERS);
        let mut names: Vec<String> = numbers.map(answer).collect();
        names.push(BEFORE_15.to_string());
        names.extend(ends(NOT_ENDED));
        names.extend(refused_picks());
        for depth in DEPTHS {
            names.extend([RUNNING, WAITING, FAULTED].map(|status| at_depth(status, depth)));
        }
        // At depth 0 a join goes to its continuation.
        let impossible = at_depth(WAITING, 0);
        names.retain(|name| *name != impossible);
        names.extend(KINDS.map(registers));
        names.extend(KINDS.map(stack_entries));
        names.extend([RUNNING, WAITING].map(with_stack));
        names.extend(VERSIONS.map(version));
        names.push(VERSION_BEFORE_COUNTS.to_string());
        ReplayCoverage {
            met: Counts::of("jobs", names),
        }
    }
}

impl ReplayCoverage {
    pub fn count(&mut self, case: &ReplayCase, answered: &Result<Replayed, u8>) {
        self.met.cases += 1;
        let number = answered.as_ref().err().copied().unwrap_or(0);
        self.met.meet_listed(&answer(number));
        if is_version_before_counts(&case.job, number) {
            self.met.meet_listed(VERSION_BEFORE_COUNTS);
        }
        match answered {
            Ok(replayed) => {
                self.met.meet_listed(&job_version(&case.job));
                let picks = case.order.len() as u64;
                self.met.greatest("picks in the longest order", picks);
                self.count_state(replayed);
            }
            Err(question::BUFFER) => {}
            Err(_) if case.state_len != engine::STATE_BYTES => self.met.meet_listed(BEFORE_15),
            Err(_) => {}
        }
    }

    fn count_state(&mut self, replayed: &Replayed) {
        let machine = &replayed.machine;
        self.met.sum("picks carried out", machine.work().into());
        for &number in &replayed.refused {
            self.met.meet_listed(&refused_pick(number));
        }
        self.met.meet_listed(&end(machine.end(), NOT_ENDED));
        for slot in machine.slots() {
            self.count_slot(slot);
        }
    }

    fn count_slot(&mut self, slot: &Slot) {
        let status = match slot.status {
            Status::Vacant => return,
            Status::Running => Some(RUNNING),
            Status::Waiting => Some(WAITING),
            Status::Faulted(_) => Some(FAULTED),
            Status::Halted => None,
        };
        if let Some(status) = status {
            self.met.meet_listed(&at_depth(status, slot.task.depth()));
        }
        for value in slot.task.registers {
            self.met.meet_listed(&registers(kind(value)));
        }
        for &value in slot.task.stack.values() {
            self.met.meet_listed(&stack_entries(kind(value)));
        }
        if slot.task.stack.height() > 0 && status.is_some() {
            self.met
                .meet_listed(&with_stack(status.unwrap_or_default()));
        }
    }
}

impl From<ReplayCoverage> for Counts {
    fn from(coverage: ReplayCoverage) -> Self {
        coverage.met
    }
}
