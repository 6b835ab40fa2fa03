//! The plain evaluation, which knows no picks and no slots.

use crate::machine::End;
use crate::stack::Stack;
use crate::task::{Record, Registers, Step, Surroundings, Task};
use crate::{Job, Program};

/// What a job comes to.
#[derive(Clone, Debug, PartialEq, Eq)]
pub struct Evaluation {
    pub end: End,
    pub registers: Registers,
    pub span: u32,
    pub work: u32,
}

/// Evaluates a job that start does not refuse. None: it has not ended within this many
/// instructions.
pub fn evaluate(job: &Job, limit: u32) -> Option<Evaluation> {
    let mut evaluator = Evaluator {
        surroundings: Surroundings {
            program: &job.program,
            words: &job.words,
            interval: job.interval,
        },
        limit,
        work: 0,
    };
    let (end, task) = match evaluator.side(Task::new(&job.registers, job.places))? {
        Side::Joined(_) => unreachable!("no record has another depth than 0 and fits at depth 0"),
        Side::Halted(task) => (End::Halt, task),
        Side::Faulted(number, task) => (End::Fault(number), task),
    };
    Some(Evaluation {
        end,
        registers: task.registers,
        span: task.span,
        work: evaluator.work,
    })
}

struct Evaluator<'a> {
    surroundings: Surroundings<'a>,
    limit: u32,
    work: u32,
}

/// How a task ended its side of its innermost fork, or the whole.
enum Side {
    Joined(Task),
    Faulted(u8, Task),
    /// Of the whole only: in a side, halt is a fault.
    Halted(Task),
}

impl Evaluator<'_> {
    /// Evaluates a task until it ends its side. Recursion goes as deep as forks nest, which is
    /// six at most.
    fn side(&mut self, mut task: Task) -> Option<Side> {
        loop {
            if self.work == self.limit {
                return None;
            }
            self.work += 1;
            match task.step(&self.surroundings) {
                Step::Onward => {}
                Step::Wait => return Some(Side::Joined(task)),
                Step::Halt => return Some(Side::Halted(task)),
                Step::Fault(number) => return Some(Side::Faulted(number, task)),
                Step::Fork { record, target } => {
                    let program = self.surroundings.program;
                    let (parent, child) = sides(program, task, record, target);
                    let parent = self.side(parent)?;
                    let child = self.side(child)?;
                    let (fault, joined) = joined(program, parent, child);
                    if let Some(number) = fault {
                        return Some(Side::Faulted(number, joined));
                    }
                    task = joined;
                }
            }
        }
    }
}

/// The parent's side and the child's of a task that forks.
fn sides(program: &Program, task: Task, record: Record, target: u8) -> (Task, Task) {
    let lower_half = task.places / 2;
    let upper_half = task.places - lower_half;

    let mut parent = task;
    parent.open_fork(record);
    let mut child = parent.clone();
    parent.places = lower_half;
    child.places = upper_half;
    child.counter = 0;
    child.stack = Stack::EMPTY;
    child.pc = program.blocks[usize::from(target)].first;
    (parent, child)
}

/// The task that two ended sides of one fork come to, and its fault's number if one of them
/// faulted. Without a fault its stack is the parent's, as the parent's side left it.
fn joined(program: &Program, parent: Side, child: Side) -> (Option<u8>, Task) {
    let fault = parent.fault().or_else(|| child.fault());
    let (mut task, child) = (parent.task(), child.task());
    let record = task.close_fork();
    task.places += child.places;
    task.span = task.span.max(child.span);
    task.counter = 0;
    if fault.is_some() {
        task.forget();
        return (fault, task);
    }
    let continuation = program.blocks[usize::from(record.continuation)];
    for &pair in &continuation.pairs[..usize::from(continuation.pair_count)] {
        task.registers[usize::from(pair % 16)] = child.registers[usize::from(pair / 16)];
    }
    task.pc = program.blocks[usize::from(continuation.label)].first;
    (None, task)
}

impl Side {
    fn fault(&self) -> Option<u8> {
        match self {
            Side::Faulted(number, _) => Some(*number),
            _ => None,
        }
    }

    fn task(self) -> Task {
        match self {
            Side::Joined(task) | Side::Faulted(_, task) | Side::Halted(task) => task,
        }
    }
}

#[cfg(test)]
mod tests;
