//! Seeded jobs of every make, in several orders: what is read off the engine's states is what the model
//! says of each instruction, and every fault is found again by halving.

use checks::jobs;
use model::task::{Step, Surroundings};
use model::{fault, Job, Status, Task, Value};
use std::collections::BTreeSet;
use std::io;
use tpasm::command::Changes;
use trace::effect::{Change, Effect, Pick};
use trace::faults::Faults;
use trace::order::{Order, Turns};
use trace::picture;
use trace::state::State;
use trace::subject::Subject;
use trace::text::{self, Request};
use trace::watch::{Observer, Watch};
use trace::words::words;

const SEED: u64 = 20261117;
const JOBS: u64 = 150;
const BUDGET: u64 = 300;

fn orders(number: u64) -> [Order; 4] {
    [
        Order::Passes,
        Order::First,
        Order::Last,
        Order::Random(number),
    ]
}

/// How often each came up.
#[derive(Debug, Default)]
struct Seen {
    /// Onward, promotions, forks, sides' ends by a join and by a fault, halts, pushes, pops.
    kinds: [u64; 8],
    aside: usize,
    faults: BTreeSet<u8>,
    /// Forks with values on the parent's stack, and joins with values on the child's.
    kept: u64,
    dropped: u64,
}

/// Compares each pick with the model's instruction, and the faults with the states'.
struct Compared<'a> {
    subject: &'a Subject,
    job: &'a Job,
    faults: Faults,
    seen: &'a mut Seen,
}

impl Compared<'_> {
    /// The model's instruction, and the task as it leaves it.
    fn model_says(&self, pick: &Pick) -> (Step, Task) {
        let surroundings = Surroundings {
            program: &self.job.program,
            words: &self.job.words,
            interval: self.job.interval,
        };
        let mut task = pick.before.slot(pick.slot).task;
        (task.step(&surroundings), task)
    }

    fn compare_effect(&mut self, pick: &Pick) {
        let old = pick.before.slot(pick.slot).task;
        let (step, new) = self.model_says(pick);
        let is_same_stack = old.stack == new.stack;
        let (kind, same) = match (&pick.effect, step) {
            (Effect::Onward(_) | Effect::Entered { .. }, Step::Onward) => (0, is_same_stack),
            (Effect::Promoted { .. }, Step::Onward) => (1, is_same_stack),
            (Effect::Forked { .. }, Step::Fork { .. }) => (2, is_same_stack),
            (Effect::Ended(side), Step::Wait) => (3, side.fault.is_none() && is_same_stack),
            (Effect::Ended(side), Step::Fault(number)) => (4, side.fault == Some(number)),
            (Effect::Halted, Step::Halt) => (5, is_same_stack),
            (Effect::Pushed { value, height }, Step::Onward) => {
                (6, has_grown([&old, &new], *value, *height))
            }
            (Effect::Popped { change, height }, Step::Onward) => {
                let has_shrunk = has_grown([&new, &old], change.new, height + 1);
                (7, has_shrunk && is_change(change, [&old, &new]))
            }
            _ => (0, false),
        };
        assert!(same, "{:?}, {:?}", pick.effect, step);
        self.seen.kinds[kind] += 1;
    }

    fn compare_faults(&mut self, pick: &Pick) {
        for (number, slot) in pick.after.live() {
            let carried = self.faults.carried(number).map(|fault| fault.number);
            match slot.status {
                Status::Faulted(fault) => assert_eq!(carried, Some(fault)),
                _ => assert_eq!(carried, None),
            }
        }
    }

    /// A fork leaves the parent its stack and the child none, a join the parent's; and the words have
    /// what the child does not get, or does not hand on.
    fn compare_stacks(&mut self, pick: &Pick, said: &str) {
        let height = |state: &State, slot| state.slot(slot).task.stack.height();
        let (mut kept, mut dropped) = (0, 0);
        match &pick.effect {
            Effect::Forked { child } => {
                kept = height(pick.before, pick.slot);
                assert_eq!(height(pick.after, *child), 0);
                assert_eq!(height(pick.after, pick.slot), kept);
            }
            Effect::Ended(side) if pick.after.slot(side.now.slot).status == Status::Running => {
                let parent = side.now.slot;
                dropped = height(pick.before, parent + pick.before.width(side.own.depth));
                let stack = |state: &State| state.slot(parent).task.stack;
                assert_eq!(stack(pick.after), stack(pick.before));
            }
            _ => {}
        }
        assert_eq!(said.contains("the child's stack is empty"), kept > 0);
        assert_eq!(said.contains("; dropped: "), dropped > 0);
        self.seen.kept += u64::from(kept > 0);
        self.seen.dropped += u64::from(dropped > 0);
    }
}

/// The second task's stack is the first's with this value on it, and so has this height.
fn has_grown([low, high]: [&Task; 2], value: Value, height: usize) -> bool {
    let values = [low.stack.values(), &[value]].concat();
    high.stack.values() == values && values.len() == height
}

fn is_change(change: &Change, tasks: [&Task; 2]) -> bool {
    let register = usize::from(change.register);
    tasks.map(|task| task.registers[register]) == [change.old, change.new]
}

impl Observer for Compared<'_> {
    fn picked(&mut self, pick: &Pick, _: &Turns) -> io::Result<()> {
        self.compare_effect(pick);
        let passed = self.faults.note(pick);
        self.compare_faults(pick);
        self.compare_stacks(pick, &words(self.subject, pick, &passed));
        if let Effect::Ended(side) = &pick.effect {
            self.seen.faults.extend(side.fault);
        }
        Ok(())
    }
}

fn subject(number: u64) -> (Subject, Vec<u8>) {
    let job = jobs::job(SEED, number).input.bytes();
    let subject = Subject::new("a.job".to_string(), job.clone(), &Changes::default());
    (subject.unwrap_or_else(|_| panic!("job {}", number)), job)
}

#[test]
fn effects_are_the_models() {
    let mut seen = Seen::default();
    for number in 0..JOBS {
        let (subject, bytes) = subject(number);
        let job = Job::parse(&bytes).unwrap();
        for order in orders(number) {
            let mut compared = Compared {
                subject: &subject,
                job: &job,
                faults: Faults::default(),
                seen: &mut seen,
            };
            let watch = Watch {
                player: &subject.player,
                program: &subject.program,
            };
            let first = subject.player.first().clone();
            let turns = &mut Turns::new(&order);
            watch.until(BUDGET, first, turns, &mut compared).unwrap();
            let aside = compared.faults.aside.len();
            seen.aside += aside;
        }
    }
    assert!(seen.kinds.iter().all(|&count| count > 0), "{:?}", seen);
    assert!(seen.aside > 0, "{:?}", seen);
    assert!(seen.kept > 0 && seen.dropped > 0, "{:?}", seen);
    assert!(seen.faults.contains(&fault::FULL), "{:?}", seen);
    assert!(seen.faults.contains(&fault::EMPTY), "{:?}", seen);
}

fn trace(subject: &Subject, order: &Order, to: u64) -> String {
    let request = Request {
        order: order.clone(),
        budget: BUDGET,
        from: 1,
        to,
        slots: false,
    };
    let mut out = Vec::new();
    text::write(subject, &request, &mut out).unwrap();
    String::from_utf8(out).unwrap()
}

/// Whatever the order, the trace ends with the engine's text, and its summary is its end.
#[test]
fn summaries_and_results() {
    for number in 0..JOBS {
        let (subject, job) = subject(number);
        let mut text = [0; engine::TEXT_BYTES];
        let length = engine::job_text(&job, BUDGET, &mut text) as usize;
        let expected = std::str::from_utf8(&text[..length]).unwrap();
        for order in orders(number) {
            let whole = trace(&subject, &order, u64::MAX);
            let (_, end) = whole.split_once("\n\n").unwrap();
            assert!(end.starts_with(expected), "job {}, {:?}", number, order);
            let summary = trace(&subject, &order, 0);
            assert_eq!(summary, end, "job {}, {:?}", number, order);
        }
    }
}

/// A bar for each task, in picks and on lanes, whose rounds the dispatcher confirms.
#[test]
fn pictures() {
    for number in 0..JOBS {
        let (subject, _) = subject(number);
        let whole = trace(&subject, &Order::Passes, u64::MAX);
        let tasks = 1 + whole.matches("forks: the child in slot").count();
        for order in [Order::Passes, Order::Lanes(1 + number % 8)] {
            let request = picture::Request {
                named: String::new(),
                budget: BUDGET,
                order,
            };
            let svg = picture::svg(&subject, &request).unwrap();
            let bars = svg.matches("<g class=\"task\">").count();
            match &request.order {
                // Another order may have come further, or not so far, within the budget.
                Order::Lanes(_) if whole.contains("\nend spent\n") => {}
                _ => assert_eq!(bars, tasks, "job {}", number),
            }
        }
    }
}
