//! The machine: a job's state, start, pick, and the budgeted run. The dispatcher is beside it.

mod dispatch;

pub(crate) use dispatch::check_lanes;
pub use dispatch::{Dispatched, MAX_LANES};

use crate::image::{Block, Program};
use crate::task::{Record, Step, Surroundings, Task, REGISTERS};
use crate::{question, shape};

pub const MAX_PLACES: u64 = 64;
pub const MAX_WORDS: usize = 4096;
/// No pick is carried out when the work stands here.
pub const WORK_LIMIT: u32 = u32::MAX;

#[derive(Clone, Copy, Debug, PartialEq, Eq)]
pub enum Status {
    /// No task.
    Vacant,
    Running,
    /// Its side of the innermost fork ended with a join.
    Waiting,
    /// Its side of the innermost fork, or at depth 0 the job, ended with this fault.
    Faulted(u8),
    /// The job ended here.
    Halted,
}

#[derive(Clone, Debug, PartialEq, Eq)]
pub struct Slot {
    pub status: Status,
    pub task: Task,
}

impl Slot {
    pub const VACANT: Slot = Slot {
        status: Status::Vacant,
        task: Task::NONE,
    };

    /// Leaves no task, and the stack's memory for the next.
    fn vacate(&mut self) {
        self.status = Status::Vacant;
        self.task.clear();
    }

    /// Whether the task there has ended its side of its innermost fork.
    pub(crate) fn has_ended_side(&self) -> bool {
        matches!(self.status, Status::Waiting | Status::Faulted(_))
    }
}

/// How a job ended.
#[derive(Clone, Copy, Debug, PartialEq, Eq)]
pub enum End {
    Halt,
    Fault(u8),
}

/// What a budgeted run answers.
#[derive(Clone, Copy, Debug, PartialEq, Eq)]
pub enum Answer {
    Ended,
    Spent,
}

#[derive(Clone, Debug, PartialEq, Eq)]
pub struct Machine {
    pub(crate) interval: u16,
    pub(crate) work: u32,
    /// Bit k is set when slot k has a running task, so that the run need not look into the others.
    pub(crate) running: u64,
    /// One for each place. A task sits in the first slot of its places, and has program counter and
    /// counter 0 unless it is running.
    pub(crate) slots: Vec<Slot>,
}

/// What a pick is handed besides its slot, after the questions about it: the program's, then 14.
/// The machine that it is used with meets the shape test for the program.
#[derive(Clone, Copy, Debug)]
pub struct Call<'a> {
    program: &'a Program,
    words: &'a [i64],
}

impl<'a> Call<'a> {
    pub fn new(program: &'a Program, words: &'a [i64]) -> Result<Self, u8> {
        program.check()?;
        Call::of_checked(program, words)
    }

    /// Of a program that its questions have been put to.
    pub(crate) fn of_checked(program: &'a Program, words: &'a [i64]) -> Result<Self, u8> {
        check_words(words)?;
        Ok(Call { program, words })
    }
}

fn check_words(words: &[i64]) -> Result<(), u8> {
    if words.len() > MAX_WORDS {
        return Err(question::WORDS);
    }
    Ok(())
}

/// Question 11.
pub(crate) fn allows_places(places: u64) -> bool {
    places.is_power_of_two() && places <= MAX_PLACES
}

/// Question 12.
pub(crate) fn allows_interval(interval: u64) -> bool {
    interval == 0 || (8..=u16::MAX.into()).contains(&interval)
}

/// The slots with a running task, as the machine keeps them.
pub(crate) fn running(slots: &[Slot]) -> u64 {
    let bit = |(number, slot): (usize, &Slot)| u64::from(slot.status == Status::Running) << number;
    slots.iter().enumerate().map(bit).sum()
}

impl Machine {
    /// The state of a fresh start.
    pub fn start(
        program: &Program,
        places: u64,
        interval: u64,
        registers: &[i64],
        words: &[i64],
    ) -> Result<Self, u8> {
        program.check()?;
        Machine::fresh(places, interval, registers, words)
    }

    /// Start's own questions. A fresh state has nothing of the program in it.
    pub(crate) fn fresh(
        places: u64,
        interval: u64,
        registers: &[i64],
        words: &[i64],
    ) -> Result<Self, u8> {
        if !allows_places(places) {
            return Err(question::PLACES);
        }
        if !allows_interval(interval) {
            return Err(question::INTERVAL);
        }
        let registers: &[i64; REGISTERS] = registers.try_into().map_err(|_| question::REGISTERS)?;
        check_words(words)?;

        let mut slots: Vec<Slot> = (0..places).map(|_| Slot::VACANT).collect();
        slots[0] = Slot {
            status: Status::Running,
            task: Task::new(registers, places as u8),
        };
        Ok(Machine {
            interval: interval as u16,
            work: 0,
            running: 1,
            slots,
        })
    }

    /// Number of slots, and sum of the places of all tasks.
    pub fn places(&self) -> usize {
        self.slots.len()
    }

    pub fn interval(&self) -> u16 {
        self.interval
    }

    pub fn work(&self) -> u32 {
        self.work
    }

    pub fn slots(&self) -> &[Slot] {
        &self.slots
    }

    /// How the job ended, if it has.
    pub fn end(&self) -> Option<End> {
        match self.slots[0].status {
            Status::Halted => Some(End::Halt),
            Status::Faulted(number) if self.last_task().depth() == 0 => Some(End::Fault(number)),
            _ => None,
        }
    }

    /// The task in slot 0: after the end the job's last one, whose registers and span are the
    /// job's.
    pub fn last_task(&self) -> &Task {
        &self.slots[0].task
    }

    /// Puts the questions of pick and run up to 20.
    fn call<'a>(&self, program: &'a Program, words: &'a [i64]) -> Result<Call<'a>, u8> {
        let call = Call::new(program, words)?;
        self.check_shape(program)?;
        Ok(call)
    }

    /// Question 20.
    fn check_shape(&self, program: &Program) -> Result<(), u8> {
        if !shape::meets(self, program) {
            return Err(question::SHAPE);
        }
        Ok(())
    }

    /// Carries out a pick of this slot. A refusal leaves the state as it was.
    pub fn pick(&mut self, program: &Program, words: &[i64], slot: usize) -> Result<(), u8> {
        let call = self.call(program, words)?;
        self.pick_in(call, slot)
    }

    /// A pick for each byte of the order, refused ones passed over.
    pub fn play(&mut self, call: Call, order: &[u8]) {
        for &slot in order {
            let _ = self.pick_in(call, slot.into());
        }
    }

    /// A pick that has only the questions from 21 on left to put.
    pub fn pick_in(&mut self, call: Call, slot: usize) -> Result<(), u8> {
        if slot >= self.places() {
            return Err(question::SLOT);
        }
        if self.end().is_some() {
            return Err(question::NOT_ENDED);
        }
        if self.slots[slot].status != Status::Running {
            return Err(question::RUNNING);
        }
        if self.work == WORK_LIMIT {
            return Err(question::WORK);
        }
        self.carry_out(&self.surroundings(call), slot);
        Ok(())
    }

    /// Passes over the slots again and again and picks each that has a running task when reached,
    /// until the job has ended, the budget is spent or the work stands at its limit. Also hands
    /// back the number of picks carried out.
    pub fn run(
        &mut self,
        program: &Program,
        words: &[i64],
        budget: u64,
    ) -> Result<(Answer, u64), u8> {
        let call = self.call(program, words)?;
        Ok(self.run_in(call, budget))
    }

    /// A run whose questions have been put.
    pub(crate) fn run_in(&mut self, call: Call, budget: u64) -> (Answer, u64) {
        let allowed = budget.min(u64::from(WORK_LIMIT - self.work));
        let mut picks = 0;
        let mut ahead = self.running;
        let surroundings = self.surroundings(call);
        // A job that has not ended has a running task.
        while self.running != 0 {
            if picks == allowed {
                return (Answer::Spent, picks);
            }
            if ahead == 0 {
                ahead = self.running;
            }
            let slot = ahead.trailing_zeros();
            self.carry_out(&surroundings, slot as usize);
            picks += 1;
            // Read anew: the pick may have made a task running further on, or vacated its slot.
            ahead = self.running & (u64::MAX << slot << 1);
        }
        (Answer::Ended, picks)
    }

    /// What the tasks' instructions look at in this call.
    fn surroundings<'a>(&self, call: Call<'a>) -> Surroundings<'a> {
        Surroundings {
            program: call.program,
            words: call.words,
            interval: self.interval,
        }
    }

    /// Issues one instruction of the running task in this slot.
    #[inline(always)]
    fn carry_out(&mut self, surroundings: &Surroundings, slot: usize) {
        let program = surroundings.program;
        self.work += 1;
        match self.slots[slot].task.step(surroundings) {
            Step::Onward => {}
            Step::Fork { record, target } => {
                self.fork(slot, record, &program.blocks[usize::from(target)]);
            }
            Step::Wait => {
                self.end_task(slot, Status::Waiting);
                self.settle(program, slot);
            }
            Step::Halt => self.end_task(slot, Status::Halted),
            Step::Fault(number) => {
                self.end_task(slot, Status::Faulted(number));
                self.settle(program, slot);
            }
        }
    }

    /// The task issues no more instructions, and has neither program counter nor counter.
    fn end_task(&mut self, slot: usize, status: Status) {
        let task = &mut self.slots[slot].task;
        task.pc = 0;
        task.counter = 0;
        self.set_status(slot, status);
    }

    fn set_status(&mut self, slot: usize, status: Status) {
        self.slots[slot].status = status;
        let bit = 1 << slot;
        if status == Status::Running {
            self.running |= bit;
        } else {
            self.running &= !bit;
        }
    }

    /// The parent keeps its slot and the lower half of its places.
    fn fork(&mut self, slot: usize, record: Record, target: &Block) {
        let parent = &mut self.slots[slot].task;
        parent.open_fork(record);
        parent.places /= 2;
        let child_slot = slot + usize::from(parent.places);

        let (before, after) = self.slots.split_at_mut(child_slot);
        let child = &mut after[0].task;
        child.become_child_of(&before[slot].task);
        child.pc = target.first;
        self.set_status(child_slot, Status::Running);
    }

    /// Joins the sides of the fork that the task in this slot has ended its side of, if the other
    /// has ended too, and those of the forks around it as long as the joined task is faulted.
    fn settle(&mut self, program: &Program, mut slot: usize) {
        while self.slots[slot].task.depth() > 0 {
            // A side has as many places as the other, and lies beside it.
            let width = usize::from(self.slots[slot].task.places);
            let (parent, child) = (slot & !width, slot | width);
            if !self.both_ended(parent, child) {
                return;
            }
            self.join(program, parent, child);
            if self.slots[parent].status == Status::Running {
                return;
            }
            slot = parent;
        }
    }

    /// Whether these are the two ended sides of one fork. A deeper task has ended no more than a
    /// part of its side.
    fn both_ended(&self, parent: usize, child: usize) -> bool {
        let (parent, child) = (&self.slots[parent], &self.slots[child]);
        parent.has_ended_side()
            && child.has_ended_side()
            && parent.task.depth() == child.task.depth()
    }

    /// One task of two ended sides, in the parent's slot.
    fn join(&mut self, program: &Program, parent_slot: usize, child_slot: usize) {
        let (before, after) = self.slots.split_at_mut(child_slot);
        let (parent, child) = (&mut before[parent_slot], &mut after[0]);
        let task = &mut parent.task;

        let record = task.close_fork();
        task.places += child.task.places;
        task.span = task.span.max(child.task.span);
        let status = match (parent.status, child.status) {
            (Status::Faulted(number), _) | (_, Status::Faulted(number)) => {
                task.forget();
                Status::Faulted(number)
            }
            _ => {
                let continuation = &program.blocks[usize::from(record.continuation)];
                for (from, to) in continuation.register_pairs() {
                    task.registers[to] = child.task.registers[from];
                }
                task.pc = program.blocks[usize::from(continuation.label)].first;
                Status::Running
            }
        };
        child.vacate();
        self.set_status(parent_slot, status);
    }
}

#[cfg(test)]
mod tests;
