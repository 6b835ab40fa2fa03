//! One order of picks, or of runs, with everything compared along the way.

use super::{any_number, Manner};
use crate::job_coverage::JobCoverage;
use crate::random::Random;
use model::plain::Evaluation;
use model::{question, Answer, Call, Job, Machine, Status, MAX_PLACES};

/// Jobs that have not ended within so many instructions are taken for endless.
pub(super) const LIMIT: u32 = 6_000;
/// Picks of an endless job.
const ENDLESS_PICKS: u32 = 300;
/// Picks after the end, all to be refused.
const PICKS_AFTER_END: usize = 3;

type PicksBySlot = [u32; MAX_PLACES as usize];

/// One order in the making.
pub(super) struct Order<'a> {
    job: &'a Job,
    call: Call<'a>,
    /// What the plain evaluation says, if the job ends.
    expected: Option<&'a Evaluation>,
    pub(super) machine: Machine,
    pub(super) picks: PicksBySlot,
    /// Slots with a running task, and number of slots with any.
    running: Vec<usize>,
    live: usize,
    /// Depth of the deepest task so far.
    pub(super) deepest: usize,
}

impl<'a> Order<'a> {
    pub(super) fn new(job: &'a Job, expected: Option<&'a Evaluation>) -> Result<Self, String> {
        let machine = job
            .start()
            .map_err(|number| format!("start refused {}", number))?;
        let call = Call::new(&job.program, &job.words)
            .map_err(|number| format!("the call was refused {}", number))?;
        let mut order = Order {
            job,
            call,
            expected,
            machine,
            picks: [0; MAX_PLACES as usize],
            running: Vec::with_capacity(MAX_PLACES as usize),
            live: 0,
            deepest: 0,
        };
        order.check_state(0)?;
        Ok(order)
    }

    /// What holds after every pick; `carried_out` of them were.
    fn check_state(&mut self, carried_out: u32) -> Result<(), String> {
        let machine = &self.machine;
        ensure!(
            machine.work() == carried_out,
            "work {} after {} picks",
            machine.work(),
            carried_out
        );
        let ended = machine.end().is_some();
        match self.expected {
            None => ensure!(!ended, "ended, but not within {}", LIMIT),
            Some(expected) => {
                ensure!(
                    carried_out <= expected.work,
                    "more than {} picks",
                    expected.work
                );
                ensure!(
                    ended == (carried_out == expected.work),
                    "ended: {}, with {} picks of {}",
                    ended,
                    carried_out,
                    expected.work
                );
            }
        }
        let mut places = 0;
        self.running.clear();
        self.live = 0;
        for (number, slot) in machine.slots().iter().enumerate() {
            if slot.status == Status::Running {
                self.running.push(number);
            }
            if slot.status != Status::Vacant {
                self.live += 1;
                places += usize::from(slot.task.places);
                self.deepest = self.deepest.max(slot.task.depth());
            }
        }
        ensure!(
            ended || !self.running.is_empty(),
            "nothing to pick before the end"
        );
        ensure!(
            places == machine.places(),
            "places add up to {}, not {}",
            places,
            machine.places()
        );
        Ok(())
    }

    /// The answer that the questions give to a pick of this slot.
    fn expected_answer(&self, slot: usize) -> Result<(), u8> {
        if slot >= self.machine.places() {
            Err(question::SLOT)
        } else if self.machine.end().is_some() {
            Err(question::NOT_ENDED)
        } else if self.machine.slots()[slot].status != Status::Running {
            Err(question::RUNNING)
        } else {
            Ok(())
        }
    }

    /// Puts one pick to the machine and compares its answer. Once in a while, because both take
    /// long, all of its questions are put, and the state after a refusal is compared with that
    /// before.
    fn pick(&mut self, slot: usize, at_length: bool) -> Result<Result<(), u8>, String> {
        let expected = self.expected_answer(slot);
        let mut before = None;
        let answer = if at_length {
            if expected.is_err() {
                before = Some(self.machine.clone());
            }
            let (program, words) = (&self.job.program, &self.job.words);
            self.machine.pick(program, words, slot)
        } else {
            self.machine.pick_in(self.call, slot)
        };
        ensure!(
            answer == expected,
            "pick of slot {}: {:?}, not {:?}",
            slot,
            answer,
            expected
        );
        if let Some(before) = before {
            ensure!(self.machine == before, "a refused pick changed the state");
        }
        if answer.is_ok() {
            self.picks[slot] += 1;
        }
        Ok(answer)
    }

    /// Picks until the job has ended, or for a while if it is endless.
    pub(super) fn complete(
        &mut self,
        manner: Manner,
        random: &mut Random,
        mut coverage: Option<&mut JobCoverage>,
    ) -> Result<(), String> {
        let mut carried_out = 0;
        let mut slot = 0;
        if let Some(coverage) = &mut coverage {
            coverage.begin(self.job);
        }
        while self.machine.end().is_none() {
            if self.expected.is_none() && carried_out == ENDLESS_PICKS {
                return Ok(());
            }
            slot = manner.next(random, &self.running, slot, self.machine.places());
            if let Some(coverage) = &mut coverage {
                match self.expected_answer(slot) {
                    Ok(()) => coverage.count_pick(self.job, &self.machine, slot),
                    Err(number) => coverage.count_refusal(number),
                }
            }
            let at_length = random.one_in(16);
            if self.pick(slot, at_length)?.is_err() {
                continue;
            }
            carried_out += 1;
            let live_before = self.live;
            self.check_state(carried_out)?;
            if let Some(coverage) = &mut coverage {
                coverage.count_settled(live_before.saturating_sub(self.live));
            }
        }
        for _ in 0..PICKS_AFTER_END {
            let slot = any_number(random, self.machine.places());
            let answer = self.pick(slot, true)?;
            if let (Some(coverage), Err(number)) = (&mut coverage, answer) {
                coverage.count_refusal(number);
            }
        }
        self.check_end()
    }

    fn check_end(&self) -> Result<(), String> {
        let left = Evaluation {
            end: self.machine.end().ok_or("not ended")?,
            registers: self.machine.last_task().registers,
            span: self.machine.last_task().span,
            work: self.machine.work(),
        };
        ensure!(
            Some(&left) == self.expected,
            "left {:?}, not {:?}",
            left,
            self.expected
        );
        Ok(())
    }

    /// One budgeted run of the machine beside picks in the order that document 01 gives it.
    fn run(&mut self, budget: u64) -> Result<Answer, String> {
        let mut beside = self.machine.clone();
        let mut picks = 0;
        'passes: while beside.end().is_none() && picks < budget {
            for slot in 0..beside.places() {
                if beside.slots()[slot].status != Status::Running {
                    continue;
                }
                beside
                    .pick_in(self.call, slot)
                    .map_err(|number| format!("pick refused {}", number))?;
                picks += 1;
                if picks == budget {
                    break 'passes;
                }
            }
        }
        let answer = match beside.end() {
            Some(_) => Answer::Ended,
            None => Answer::Spent,
        };
        let ran = self.machine.run(&self.job.program, &self.job.words, budget);
        ensure!(
            ran == Ok((answer, picks)),
            "run of {}: {:?}, not {:?}",
            budget,
            ran,
            (answer, picks)
        );
        ensure!(
            self.machine == beside,
            "run of {}: another state than picks leave",
            budget
        );
        Ok(answer)
    }

    /// Budgeted runs one after the other, until the job has ended.
    pub(super) fn complete_by_runs(&mut self, random: &mut Random) -> Result<(), String> {
        loop {
            let budget = match random.below(8) {
                0 => random.below(3),
                1..=3 => random.below(20),
                _ => random.below(2_000),
            };
            let answer = self.run(budget as u64)?;
            self.check_state(self.machine.work())?;
            if answer == Answer::Ended {
                self.run(0)?;
                self.run(budget as u64)?;
                return self.check_end();
            }
            if self.expected.is_none() && self.machine.work() >= ENDLESS_PICKS {
                return Ok(());
            }
        }
    }
}
