//! What a run of jobs in steps has covered, and what it ought to.

use crate::counts::Counts;
use crate::names::version;
use crate::numbers::number_at;
use crate::report::{FAULT, HALT, SPENT};
use crate::steps::call::{Buffer, Call, Door, DOORS};
use crate::steps::damage::{
    is_fault_number, Damage, CELL_FIELDS, JOB_FIELDS, MANNERS, SITTERS, SLOT_FIELDS,
};
use model::state::{JOB_NUMBERS, SLOT_NUMBERS};
use model::{fault, question, MAX_PLACES, VERSIONS, WORK_LIMIT};

/// Kinds of states that runs go on from.
#[derive(Clone, Copy, Debug, PartialEq, Eq)]
pub enum Kind {
    Fresh,
    /// All tasks are running.
    Running,
    /// A side waits.
    Waiting,
    /// A side has faulted.
    Faulted,
    Ended,
    /// Made by hand, and of the shape.
    Redrawn,
    NearTheLimit,
}

const KINDS: [Kind; 7] = [
    Kind::Fresh,
    Kind::Running,
    Kind::Waiting,
    Kind::Faulted,
    Kind::Ended,
    Kind::Redrawn,
    Kind::NearTheLimit,
];

impl Kind {
    /// Of a state that an order has led to.
    pub fn of(state: &[u8]) -> Self {
        let first = |slot: usize| JOB_NUMBERS + SLOT_NUMBERS * slot;
        let status = |slot: usize| number_at(state, first(slot));
        let any = |wanted| (0..MAX_PLACES as usize).any(|slot| status(slot) == wanted);
        let depth_0 = number_at(state, first(0) + 6) == 0;
        match status(0) {
            _ if number_at(state, 2) == 0 => Kind::Fresh,
            3 => Kind::Ended,
            4 if depth_0 => Kind::Ended,
            _ if any(4) => Kind::Faulted,
            _ if any(2) => Kind::Waiting,
            _ => Kind::Running,
        }
    }
}

#[derive(Clone, Copy, Debug, PartialEq, Eq)]
pub enum Budget {
    None,
    One,
    Few,
    Many,
    /// Larger than any work.
    Greatest,
}

const BUDGETS: [Budget; 5] = [
    Budget::None,
    Budget::One,
    Budget::Few,
    Budget::Many,
    Budget::Greatest,
];

pub struct StepsCoverage {
    met: Counts,
}

const PICKS: &str = "picks carried out";

const BEYOND: &str = "pick of a slot from P on";
const BEYOND_CUT: &str = "pick of a number that is a running task's slot when cut to size";
const GREATEST_SLOT: &str = "pick of the greatest number";
const AFTER_END: [&str; 2] = ["pick after a halt", "pick after the last fault"];
const NOT_RUNNING: [&str; 3] = [
    "pick of a vacant slot",
    "pick of a waiting task",
    "pick of a faulted task",
];
const AT_LIMIT: &str = "pick with the work at its limit";
const BELOW_LIMIT: &str = "pick that takes the work to its limit";

const RUNS: [&str; 7] = [
    "run spent at once",
    "run spent after its budget",
    "run spent at the limit, before its budget",
    "run that halts on its last pick",
    "run that halts",
    "run that faults",
    "run of an ended job",
];

/// Numbers of a state that may be others alone; P, places and depth may not.
const TAKEN: [&str; 16] = [
    "interval",
    "work",
    "status",
    "fault number",
    "program counter",
    "counter",
    "span",
    "fork's continuation",
    "fork's depth",
    "register's kind",
    "register's first number",
    "register's second number",
    "stack's height",
    "entry's kind",
    "entry's first number",
    "entry's second number",
];

/// Entries of stacks that were changed, below the height or from it on, of tasks that have not
/// faulted.
const ENTRY_OWNERS: [&str; 3] = ["a running task", "a waiting task", "a halted task"];

fn entry_of(owner: &str, below_height: bool, answer: &str) -> String {
    let place = if below_height { "below" } else { "from" };
    format!(
        "entry {} the height of {} changed: {}",
        place, owner, answer
    )
}

const STACK_FAULTS: [u8; 2] = [fault::FULL, fault::EMPTY];

/// Of a faulted task whose number became this one.
fn fault_in_state(number: u64, version: u64, answer: &str) -> String {
    format!(
        "fault {} in a state of version {}: {}",
        number, version, answer
    )
}

fn version_before_counts(door: Door) -> String {
    format!("{:?} answers 3 before 4", door)
}

fn answers(door: Door, number: u8) -> String {
    format!("{:?} answers {:2}", door, number)
}

fn run_of(kind: Kind, budget: Budget) -> String {
    format!("run of {:?}, budget {:?}", kind, budget)
}

fn wrong_length(door: Door, buffer: Buffer) -> String {
    format!("{:?} answers 15 for the {:?}", door, buffer)
}

fn state_number(field: &str, answer: &str) -> String {
    format!("state's {} changed: {}", field, answer)
}

fn sitters_number(field: &str, sitter: &str) -> String {
    format!("{} of {} changed: refused 20", field, sitter)
}

fn manner_of(field: &str, manner: &str) -> String {
    format!("{} changed {}: refused", field, manner)
}

fn cell(field: &str, answer: &str) -> String {
    format!("cell {} changed: {}", field, answer)
}

/// Cells that may hold other numbers. A block starts where the instructions before it say.
const TAKEN_CELLS: [&str; 11] = [
    "version",
    "annotation",
    "policy",
    "label",
    "pairs",
    "opcode",
    "r",
    "s",
    "kind",
    "operand",
    "unused",
];

/// What is to be met where one thing of a call is wrong.
fn damage_names() -> Vec<String> {
    let mut names = Vec::new();
    names.extend(TAKEN.map(|field| state_number(field, "taken")));
    names.extend(JOB_FIELDS.map(|field| state_number(field, "refused 20")));
    for field in SLOT_FIELDS {
        names.extend(SITTERS.map(|sitter| sitters_number(field, sitter)));
    }
    for field in JOB_FIELDS.iter().chain(&SLOT_FIELDS) {
        names.extend(MANNERS.map(|manner| manner_of(field, manner)));
    }
    for field in CELL_FIELDS {
        if field != "unused" {
            names.push(cell(field, "refused"));
            names.extend(MANNERS.map(|manner| manner_of(&format!("cell {}", field), manner)));
        }
    }
    names.extend(TAKEN_CELLS.map(|field| cell(field, "taken")));
    for owner in ENTRY_OWNERS {
        names.push(entry_of(owner, true, "taken"));
        let places = [true, false];
        names.extend(places.map(|below| entry_of(owner, below, "refused 20")));
    }
    for number in STACK_FAULTS.map(u64::from) {
        names.push(fault_in_state(number, 1, "refused 20"));
        names.push(fault_in_state(number, 2, "taken"));
    }
    let with_program = DOORS.into_iter().filter(|&door| door != Door::Read);
    names.extend(with_program.map(version_before_counts));
    names
}

impl Default for StepsCoverage {
    fn default() -> Self {
        let mut names = Vec::new();
        for door in DOORS {
            names.push(answers(door, 0));
            names.extend(door.refusals().iter().map(|&number| answers(door, number)));
            // An image's length is question 5.
            let buffers = door
                .buffers()
                .iter()
                .filter(|&&buffer| (door, buffer) != (Door::Read, Buffer::Image));
            names.extend(buffers.map(|&buffer| wrong_length(door, buffer)));
        }
        for kind in KINDS {
            names.extend(BUDGETS.map(|budget| run_of(kind, budget)));
        }
        // Nobody knows whether it ends.
        let endless = run_of(Kind::Redrawn, Budget::Greatest);
        names.retain(|name| *name != endless);
        names.extend(RUNS.map(String::from));
        names.extend([BEYOND, BEYOND_CUT, GREATEST_SLOT, AT_LIMIT, BELOW_LIMIT].map(String::from));
        names.extend(AFTER_END.map(String::from));
        names.extend(NOT_RUNNING.map(String::from));

        names.extend(damage_names());
        names.extend(VERSIONS.map(version));
        StepsCoverage {
            met: Counts::of("jobs", names),
        }
    }
}

impl StepsCoverage {
    pub fn count_job(&mut self, of_version: u16) {
        self.met.cases += 1;
        self.met.meet(&version(of_version));
    }

    pub fn count_answer(&mut self, call: &Call, number: u8) {
        self.met.sum("calls", 1);
        self.met.meet(&answers(call.door, number));
        if call.door == Door::Pick && number == 0 {
            self.met.sum(PICKS, 1);
        }
    }

    /// Counts a pick of a state that meets the shape test.
    pub fn count_pick(&mut self, state: &[u8], slot: u64, number: u8) {
        let status = |slot: usize| number_at(state, JOB_NUMBERS + SLOT_NUMBERS * slot);
        match number {
            0 if number_at(state, 2) + 1 == u64::from(WORK_LIMIT) => self.met.meet(BELOW_LIMIT),
            question::SLOT => {
                self.met.meet(BEYOND);
                let running = |bits: u64| {
                    let cut = slot & bits;
                    cut < number_at(state, 0) && status(cut as usize) == 1
                };
                if running(0xff) && running(0xffff) && running(0xffff_ffff) {
                    self.met.meet(BEYOND_CUT);
                }
                if slot == u64::MAX {
                    self.met.meet(GREATEST_SLOT);
                }
            }
            question::NOT_ENDED => {
                let halted = status(0) == 3;
                self.met.meet(AFTER_END[usize::from(!halted)]);
            }
            question::RUNNING => self.met.meet(match status(slot as usize) {
                0 => NOT_RUNNING[0],
                2 => NOT_RUNNING[1],
                _ => NOT_RUNNING[2],
            }),
            question::WORK => self.met.meet(AT_LIMIT),
            _ => {}
        }
    }

    pub fn count_run(&mut self, kind: Kind, class: Budget, budget: u64, report: &[u8]) {
        self.met.meet(&run_of(kind, class));
        let [end, _, picks, work] = [0, 1, 2, 3].map(|index| number_at(report, index));
        self.met.sum(PICKS, picks);
        let limit = u64::from(WORK_LIMIT);
        self.met.meet(match end {
            SPENT if picks == budget && picks == 0 => RUNS[0],
            SPENT if picks == budget => RUNS[1],
            SPENT if work == limit => RUNS[2],
            HALT | FAULT if picks == 0 => RUNS[6],
            HALT if picks == budget => RUNS[3],
            HALT => RUNS[4],
            FAULT => RUNS[5],
            _ => panic!(
                "spent after {} of {} picks, with work {}",
                picks, budget, work
            ),
        });
    }

    /// Counts what one wrong thing was answered with.
    pub fn count_damage(&mut self, call: &Call, damages: &[Damage], number: u8) {
        let door = call.door;
        let damage = match damages {
            [damage] => *damage,
            _ => return,
        };
        let refused = number == question::SHAPE;
        match damage {
            Damage::JobNumber { field, manner } => {
                self.count_number(JOB_FIELDS[field], manner, refused);
            }
            Damage::SlotNumber { .. } => self.count_slot_number(call, damage, refused),
            Damage::VersionAndCount if number == question::VERSION => {
                self.met.meet(&version_before_counts(door));
            }
            Damage::VersionAndCount => {}
            Damage::Cell { field, manner } => {
                let field = CELL_FIELDS[field];
                // Of a state that is handed in, a changed program may be the wrong one.
                if (question::VERSION..=question::LAST_IN_BLOCK).contains(&number) {
                    self.met.meet(&cell(field, "refused"));
                    let manner = manner_of(&format!("cell {}", field), MANNERS[manner]);
                    self.met.meet(&manner);
                } else {
                    self.met.meet(&cell(field, "taken"));
                }
            }
            Damage::Length { buffer } if number == question::BUFFER => {
                self.met.meet(&wrong_length(door, buffer));
            }
            Damage::Length { .. } | Damage::Numbers => {}
        }
    }

    fn count_slot_number(&mut self, call: &Call, damage: Damage, refused: bool) {
        let (field, sitter, manner, below_height, new) = match damage {
            Damage::SlotNumber {
                field,
                sitter,
                manner,
                below_height,
                number,
            } => (field, sitter, manner, below_height, number),
            _ => return,
        };
        let answer = if refused { "refused 20" } else { "taken" };
        if refused {
            let name = sitters_number(SLOT_FIELDS[field], SITTERS[sitter]);
            self.met.meet(&name);
        }
        if let Some(below_height) = below_height {
            let name = entry_of(SITTERS[sitter], below_height, answer);
            self.met.meet(&name);
        }
        let is_stacks = STACK_FAULTS.iter().any(|&number| new == number.into());
        if is_fault_number(field, sitter) && is_stacks {
            let program = call.buffer(Buffer::Program).unwrap_or_default();
            self.met
                .meet(&fault_in_state(new, number_at(program, 0), answer));
        }
        self.count_number(SLOT_FIELDS[field], manner, refused);
    }

    fn count_number(&mut self, field: &str, manner: usize, refused: bool) {
        let answer = if refused { "refused 20" } else { "taken" };
        self.met.meet(&state_number(field, answer));
        if refused {
            self.met.meet(&manner_of(field, MANNERS[manner]));
        }
    }
}

impl From<StepsCoverage> for Counts {
    fn from(coverage: StepsCoverage) -> Self {
        coverage.met
    }
}
