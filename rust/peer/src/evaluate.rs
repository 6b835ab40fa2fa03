//! A job, depth first: forks, the ends of their sides, and joins.

use crate::job::Job;
use crate::op::{Code, Target};
use crate::run::{Innermost, Scene, Stop};
use crate::task::{continuation, depth_bits, Task};
use model::job::Report;
use model::task::{MAX_DEPTH, ZEROS};
use model::{End, WORK_LIMIT};

/// An open fork.
#[derive(Clone, Copy)]
struct Fork {
    record: i64,
    /// The parent's place among the tasks.
    parent: usize,
    /// The block that the child starts.
    label: u8,
    /// Whether the parent's side has ended.
    has_ended: bool,
    /// The fault that it ended with, or 0.
    fault: u8,
}

const NO_FORK: Fork = Fork {
    record: 0,
    parent: 0,
    label: 0,
    has_ended: false,
    fault: 0,
};

struct Evaluator<'a> {
    scene: Scene<'a>,
    work: u64,
    /// The first task, and after it the child of each open fork, the outermost first. There are as
    /// many places as forks can be open, and one more.
    tasks: Vec<Task>,
    /// The place of the one that is evaluated.
    current: usize,
    /// The outermost first.
    forks: [Fork; MAX_DEPTH],
    /// The number of open forks.
    depth: usize,
}

/// Evaluates a job within a budget.
pub fn evaluate(job: &Job, code: &Code, budget: u64) -> Report {
    let scene = Scene {
        code,
        words: job.words,
        interval: job.interval,
        limit: budget.min(WORK_LIMIT.into()),
    };
    let mut task = Task::new(&job.registers, job.places);
    task.beat = scene.beat(0, job.places);
    let mut evaluator = Evaluator {
        scene,
        work: 0,
        tasks: vec![task; 1 + job.places.trailing_zeros() as usize],
        current: 0,
        forks: [NO_FORK; MAX_DEPTH],
        depth: 0,
    };
    let end = evaluator.end();
    evaluator.report(end)
}

/// How a job ends. None: it does not within its budget.
type Ended = Option<End>;

impl Evaluator<'_> {
    fn end(&mut self) -> Ended {
        let mut to = self.scene.target(0);
        loop {
            let cares = self.tasks[self.current].others & to.needs != 0;
            let stop = if cares {
                self.run::<true>(to.first.into())
            } else {
                self.run::<false>(to.first.into())
            };
            let side = match stop {
                Stop::Care(block) => Ok(block),
                Stop::Wait => self.end_side(0),
                Stop::Fault(number) => self.end_side(number),
                Stop::Halt => return Some(End::Halt),
                Stop::Spent => return None,
                Stop::Fork { .. } => unreachable!("run goes on after a fork"),
            };
            to = match side {
                Ok(block) => block,
                Err(fault) => return Some(End::Fault(fault)),
            };
            // Forks and joins may go on for ever without a jump, which would look at the budget.
            if self.work > self.scene.limit {
                return None;
            }
        }
    }

    /// Runs the task through its forks, always as a parent.
    fn run<const CARE: bool>(&mut self, mut first: usize) -> Stop {
        loop {
            let innermost = self.innermost();
            let task = &mut self.tasks[self.current];
            match self
                .scene
                .run::<CARE>(task, innermost, first, &mut self.work)
            {
                Stop::Fork {
                    record,
                    label,
                    next,
                } => {
                    self.fork(record, label);
                    first = next;
                }
                stop => return stop,
            }
        }
    }

    fn innermost(&self) -> Innermost {
        Innermost {
            depth: depth_bits(self.depth),
            record: match self.depth {
                // No record has this number.
                0 => -1,
                depth => self.forks[depth - 1].record,
            },
        }
    }

    /// The parent goes on with the lower half of its places. The child starts later.
    fn fork(&mut self, record: i64, label: u8) {
        self.forks[self.depth] = Fork {
            record,
            parent: self.current,
            label,
            has_ended: false,
            fault: 0,
        };
        self.depth += 1;
        let (before, child) = self.tasks.split_at_mut(self.depth);
        let (parent, child) = (&mut before[self.current], &mut child[0]);
        parent.places /= 2;
        if parent.places < 2 {
            parent.beat = self.scene.limit + 1;
        }
        child.become_child_of(parent);
        child.span = self.work - parent.span;
    }

    /// Ends the task's side of the innermost fork, with a fault unless the number is 0. Hands back
    /// the block with which the evaluation goes on, or the fault that the job ends with.
    fn end_side(&mut self, mut fault: u8) -> Result<Target, u8> {
        while self.depth > 0 {
            let fork = &mut self.forks[self.depth - 1];
            if !fork.has_ended {
                fork.has_ended = true;
                fork.fault = fault;
                let label = fork.label;
                return Ok(self.start_child(label));
            }
            let fork = *fork;
            if fork.fault != 0 {
                fault = fork.fault;
            }
            let combining = self.join(fork.parent, fork.record);
            if fault == 0 {
                return Ok(combining);
            }
        }
        Err(fault)
    }

    fn start_child(&mut self, label: u8) -> Target {
        let parent = &mut self.tasks[self.current];
        parent.span = self.work - parent.span;
        self.current = self.depth;
        let child = &mut self.tasks[self.current];
        child.span = self.work - child.span;
        child.beat = self.scene.beat(self.work, child.places);
        self.scene.target(label)
    }

    /// One task of the innermost fork's two ended sides: in the parent's place, to start the
    /// combining block that is handed back. If a side faulted, its registers are nobody's.
    fn join(&mut self, parent: usize, record: i64) -> Target {
        let continuation = &self.scene.code.blocks[usize::from(continuation(record))];
        let (before, child) = self.tasks.split_at_mut(self.depth);
        let (task, child) = (&mut before[parent], &child[0]);
        for (from, to) in continuation.register_pairs() {
            task.copy(to, &child.copied(from));
        }
        task.places *= 2;
        task.span = self.work - task.span.max(self.work - child.span);
        task.beat = self.scene.beat(self.work, task.places);
        self.depth -= 1;
        self.current = parent;
        self.scene.target(continuation.label)
    }

    fn report(&self, end: Ended) -> Report {
        let limit = self.scene.limit;
        let ended = end.filter(|_| self.work <= limit);
        let task = &self.tasks[0];
        let (span, registers) = match ended {
            None => (0, ZEROS),
            Some(End::Fault(_)) => (self.work - task.span, ZEROS),
            Some(End::Halt) => (self.work - task.span, task.registers()),
        };
        let work = self.work.min(limit);
        Report {
            end: ended,
            picks: work,
            work: work as u32,
            span: span as u32,
            registers,
        }
    }
}
