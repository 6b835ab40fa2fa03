//! What a run of jobs has covered, and what it ought to.

use crate::counts::Counts;
use crate::jobs::{JobCase, Make, INTERVALS, MAKES};
use crate::names::{
    at_depth, end, ends, kind, refused_pick, refused_picks, version, DEPTHS, FAULTS, KINDS,
    NOT_ENDED,
};
use crate::shadow::Shadow;
use model::plain::Evaluation;
use model::task::{Step, Surroundings, Task, MAX_DEPTH};
use model::{fault, opcode, Block, Job, Machine, Status, MAX_PAIRS, STACK, VERSIONS};

/// Everything that can be met ought to be.
pub struct JobCoverage {
    met: Counts,
    /// Of the order at hand.
    shadow: Shadow,
}

/// Ways of entering a block that may be promotion-ready, and where the counter stands beside the
/// interval; with two places or more.
const WAYS: [(u8, &str); 2] = [(opcode::JUMP, "jump"), (opcode::IF_JUMP, "if-jump")];
const BESIDE: [&str; 3] = ["one below", "at", "one above"];

/// How the sides of a fork end; those that a pick joined first, not those further outward.
const SIDES: [&str; 2] = ["joined", "faulted"];

const DEEPEST: &str = "deepest task";
const PROMOTION: &str = "promotion";
const FORK: &str = "fork";
const JOIN_THROUGH: &str = "join to its continuation";
const OTHER_FAULT: &str = "parent and child faulted with different numbers";

/// The faults of stacks, by the side of the innermost fork that the task is on.
const STACK_FAULTS: [u8; 2] = [fault::FULL, fault::EMPTY];
const TASKS: [&str; 2] = ["parent", "child"];
/// Where a popped value was pushed: across a fork and its join means before the fork.
const POPPED: [&str; 3] = [
    "pop of a value pushed at the same depth",
    "pop of a value pushed outside an open fork",
    "pop of a value pushed before a fork, after its join",
];
const FULL_STACK: &str = "push that fills the stack";
const LAST_VALUE: &str = "pop that empties the stack";
const HALT_WITH_VALUES: &str = "halt with values on the stack";
const WAIT_WITH_VALUES: &str = "wait with values on the stack";
const FORK_WITH_VALUES: &str = "fork with values on the stack";
const FAULT_WITH_VALUES: &str = "fault with values on the stack";
const DROPPED: &str = "child's values dropped at a join";
const RETURN: &str = "jump to a popped label";
const STACKS: [&str; 8] = [
    FULL_STACK,
    LAST_VALUE,
    HALT_WITH_VALUES,
    WAIT_WITH_VALUES,
    FORK_WITH_VALUES,
    FAULT_WITH_VALUES,
    DROPPED,
    RETURN,
];

fn stack_fault(number: u8, task: &str) -> String {
    format!("fault {} in a {}", number, task)
}

fn stacked(what: &str, kind: &str) -> String {
    format!("{} of {}", what, kind)
}

fn joined_with(pairs: u8) -> String {
    format!("joined with {} pairs", pairs)
}

fn make(make: Make) -> String {
    format!("make {:?}", make)
}

fn places(places: u8) -> String {
    format!("P {}", places)
}

fn interval(interval: u16) -> String {
    format!("interval {}", interval)
}

/// By the depth of the task that issued the instruction.
fn fault_at(number: u8, depth: usize) -> String {
    at_depth(&format!("fault {}", number), depth)
}

fn entry(way: &str, beside: &str) -> String {
    format!("{} with the counter {} the interval", way, beside)
}

fn sides(parent: &str, child: &str) -> String {
    format!("parent {}, child {}", parent, child)
}

fn settled(forks: usize) -> String {
    format!("{} forks closed by one pick", forks)
}

/// Of a task that goes on: nothing else clears its counter.
fn is_promoted(after: &Task) -> bool {
    after.counter == 0
}

impl Default for JobCoverage {
    fn default() -> Self {
        let mut names: Vec<String> = MAKES.map(make).to_vec();
        names.extend(DEPTHS.map(|halvings| places(1 << halvings)));
        names.extend(INTERVALS.map(interval));
        names.extend(ends(NOT_ENDED));
        for depth in DEPTHS {
            names.extend([DEEPEST, JOIN_THROUGH].map(|what| at_depth(what, depth)));
            names.extend(FAULTS.map(|number| fault_at(number, depth)));
            names.push(settled(depth));
        }
        // At depth 0 no fork is open.
        let impossible = fault_at(fault::OPEN_FORK, 0);
        names.retain(|name| *name != impossible);
        // Both take two places.
        for depth in 0..MAX_DEPTH {
            names.extend([PROMOTION, FORK].map(|what| at_depth(what, depth)));
        }
        for (_, way) in WAYS {
            names.extend(BESIDE.map(|beside| entry(way, beside)));
        }
        for parent in SIDES {
            names.extend(SIDES.map(|child| sides(parent, child)));
        }
        names.push(OTHER_FAULT.to_string());
        names.extend(refused_picks());
        names.extend(VERSIONS.map(version));
        names.extend((0..=MAX_PAIRS as u8).map(joined_with));
        for number in STACK_FAULTS {
            names.extend(TASKS.map(|task| stack_fault(number, task)));
        }
        for kind in KINDS {
            names.extend(["push", "pop"].map(|what| stacked(what, kind)));
        }
        names.extend(POPPED.map(String::from));
        names.extend(STACKS.map(String::from));
        JobCoverage {
            met: Counts::of("jobs", names),
            shadow: Shadow::default(),
        }
    }
}

impl JobCoverage {
    /// An order of this job begins, of which the picks are counted.
    pub fn begin(&mut self, job: &Job) {
        self.met.meet_listed(&version(job.program.version));
        self.shadow = Shadow::default();
    }

    pub fn count_job(&mut self, case: &JobCase, expected: Option<&Evaluation>, deepest: usize) {
        self.met.cases += 1;
        self.met.meet_listed(&make(case.make));
        self.met.meet_listed(&places(case.input.places));
        self.met.meet_listed(&interval(case.input.interval));
        self.met.meet_listed(&at_depth(DEEPEST, deepest));
        let expected = expected.map(|evaluation| evaluation.end);
        self.met.meet_listed(&end(expected, NOT_ENDED));
    }

    pub fn count_refusal(&mut self, number: u8) {
        self.met.meet_listed(&refused_pick(number));
    }

    /// Counts what a pick of this slot, which has a running task, is about to do.
    pub fn count_pick(&mut self, job: &Job, machine: &Machine, slot: usize) {
        self.met.sum("picks", 1);
        let before = &machine.slots()[slot].task;
        let depth = before.depth();
        let mut after = before.clone();
        let step = after.step(&Surroundings {
            program: &job.program,
            words: &job.words,
            interval: job.interval,
        });
        self.count_stack(job, before, &after, &step, slot);
        match step {
            Step::Onward => {
                let instruction = &job.program.instructions[usize::from(before.pc)];
                if is_promoted(&after) {
                    self.met.meet_listed(&at_depth(PROMOTION, depth));
                }
                if instruction.opcode == opcode::JOIN {
                    self.met.meet_listed(&at_depth(JOIN_THROUGH, depth));
                }
                self.count_entry(job, instruction.opcode, before, &after);
            }
            Step::Fork { .. } => self.met.meet_listed(&at_depth(FORK, depth)),
            Step::Halt => {}
            Step::Wait => self.count_end_of_side(job, machine, slot, None),
            Step::Fault(number) => {
                self.met.meet_listed(&fault_at(number, depth));
                self.count_end_of_side(job, machine, slot, Some(number));
                if depth > 0 && STACK_FAULTS.contains(&number) {
                    let is_child = slot & usize::from(before.places) != 0;
                    let name = stack_fault(number, TASKS[usize::from(is_child)]);
                    self.met.meet_listed(&name);
                }
            }
        }
    }

    /// Counts what the instruction does with the task's stack.
    fn count_stack(&mut self, job: &Job, before: &Task, after: &Task, step: &Step, slot: usize) {
        let (depth, height) = (before.depth(), before.stack.height());
        let instruction = &job.program.instructions[usize::from(before.pc)];
        let popped = before.stack.values().last();
        match (step, instruction.opcode, popped) {
            (Step::Onward, opcode::PUSH, _) => {
                let value = after.stack.values()[height];
                self.met.meet_listed(&stacked("push", kind(value)));
                if height + 1 == STACK {
                    self.met.meet_listed(FULL_STACK);
                }
                self.shadow.push(slot, depth);
            }
            (Step::Onward, opcode::POP, Some(&value)) => {
                self.met.meet_listed(&stacked("pop", kind(value)));
                if height == 1 {
                    self.met.meet_listed(LAST_VALUE);
                }
                let origin = self.shadow.pop(slot, depth, instruction.r);
                self.met.meet_listed(POPPED[origin as usize]);
            }
            (Step::Onward, opcode::JUMP, _) if instruction.kind == 1 => {
                if self.shadow.last_popped(slot) == Some(instruction.operand as u8) {
                    self.met.meet_listed(RETURN);
                }
            }
            _ => {}
        }
        if let Step::Fork { .. } = step {
            self.shadow
                .fork(slot, usize::from(before.places / 2), depth);
        }
        let with_values = match step {
            Step::Fork { .. } => FORK_WITH_VALUES,
            Step::Wait => WAIT_WITH_VALUES,
            Step::Halt => HALT_WITH_VALUES,
            Step::Fault(_) => FAULT_WITH_VALUES,
            Step::Onward => return,
        };
        if height > 0 {
            self.met.meet_listed(with_values);
        }
    }

    /// Counts an entry of a promotion-ready block, or of its handler in its place, where the counter
    /// is close to the interval.
    fn count_entry(&mut self, job: &Job, opcode: u8, before: &Task, after: &Task) {
        let way = WAYS.iter().find(|(number, _)| *number == opcode);
        let counter = before.counter + 1;
        let beside = (counter + 1).checked_sub(job.interval.into());
        let beside = beside.and_then(|beside| BESIDE.get(beside as usize));
        if let (Some((_, way)), Some(beside)) = (way, beside) {
            // An if-jump that is not taken does not come to a block's first instruction.
            let ready = |block: &Block| block.is_promotion_ready() && block.first == after.pc;
            let entered = is_promoted(after) || job.program.blocks.iter().any(ready);
            let may_promote = job.interval != 0 && before.places >= 2;
            if may_promote && entered {
                self.met.meet_listed(&entry(way, beside));
            }
        }
    }

    fn count_end_of_side(&mut self, job: &Job, machine: &Machine, slot: usize, number: Option<u8>) {
        let task = &machine.slots()[slot].task;
        if task.depth() == 0 {
            return;
        }
        let width = usize::from(task.places);
        let other = &machine.slots()[slot ^ width];
        if other.task.depth() != task.depth() {
            return;
        }
        let others_number = match other.status {
            Status::Waiting => None,
            Status::Faulted(number) => Some(number),
            _ => return,
        };
        let (parents, childs) = if slot & width == 0 {
            (number, others_number)
        } else {
            (others_number, number)
        };
        let [parent, child] = [parents, childs].map(|number| SIDES[usize::from(number.is_some())]);
        self.met.meet_listed(&sides(parent, child));
        if parents.is_none() && childs.is_none() {
            self.count_join(job, machine, slot & !width, slot | width);
        }
        if parents.is_some() && childs.is_some() && parents != childs {
            self.met.meet_listed(OTHER_FAULT);
        }
    }

    /// Counts the join of two sides without a fault.
    fn count_join(&mut self, job: &Job, machine: &Machine, parent: usize, child: usize) {
        let task = |slot: usize| &machine.slots()[slot].task;
        let fork = task(parent).forks().last().expect("a fork is open");
        let continuation = &job.program.blocks[usize::from(fork.continuation)];
        self.met.meet_listed(&joined_with(continuation.pair_count));
        if task(child).stack.height() > 0 {
            self.met.meet_listed(DROPPED);
        }
    }

    pub fn count_settled(&mut self, forks: usize) {
        self.met.meet_listed(&settled(forks));
    }
}

impl From<JobCoverage> for Counts {
    fn from(coverage: JobCoverage) -> Self {
        coverage.met
    }
}
