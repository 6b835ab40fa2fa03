//! A job taken pick by pick, with other calls beside it on the states that it goes through.

use super::call::{Answered, Call};
use super::damage::damage;
use super::redraw::{near_the_limit, redraw};
use crate::assemble::JobInput;
use crate::numbers::number_at;
use crate::orders::MANNERS;
use crate::random::Random;
use crate::steps_coverage::{Budget, Kind, StepsCoverage};
use engine::{PROGRAM_BYTES, REPORT_BYTES, STATE_BYTES};
use model::plain::{evaluate, Evaluation};
use model::state::{JOB_NUMBERS, SLOT_NUMBERS};
use model::{Job, MAX_PLACES};

/// Jobs that have not ended within so many instructions are taken for endless.
const ENDLESS: u32 = 6_000;

const RUNNING: u64 = 1;

/// The slots whose status is this one.
pub(super) fn slots_with(state: &[u8], status: u64) -> Vec<usize> {
    let slots = 0..MAX_PLACES as usize;
    slots
        .filter(|slot| number_at(state, JOB_NUMBERS + SLOT_NUMBERS * slot) == status)
        .collect()
}

/// What the calls of a case come to.
pub(super) struct Trial<'a> {
    pub(super) random: Random,
    pub(super) coverage: &'a mut StepsCoverage,
}

impl Trial<'_> {
    /// Puts a call to both.
    pub(super) fn put(&mut self, call: &Call) -> Result<Answered, String> {
        let answered = call
            .compare(self.random.bits())
            .map_err(|what| format!("{}\n{}", what, call))?;
        self.coverage.count_answer(call, answered.number);
        Ok(answered)
    }

    /// Puts a call that both are to accept.
    pub(super) fn put_good(&mut self, call: &Call) -> Result<Vec<Vec<u8>>, String> {
        let answered = self.put(call)?;
        ensure!(
            answered.number == 0,
            "refused {}: {}",
            answered.number,
            call
        );
        Ok(answered.written)
    }

    /// Puts the call with something wrong.
    pub(super) fn put_damaged(&mut self, mut call: Call) -> Result<Answered, String> {
        let damages = damage(&mut self.random, &mut call);
        let answered = self
            .put(&call)
            .map_err(|what| format!("{}\nafter {:?}", what, damages))?;
        self.coverage.count_damage(&call, &damages, answered.number);
        Ok(answered)
    }

    /// Bytes for a buffer that is only written.
    pub(super) fn filled(&mut self, length: usize) -> Vec<u8> {
        vec![self.random.byte(); length]
    }
}

/// A job, and the buffers that its calls are lent.
pub(super) struct Walk<'t, 'a> {
    trial: &'t mut Trial<'a>,
    job: Job,
    input: &'t JobInput,
    program: Vec<u8>,
    words: Vec<u8>,
    /// What the plain evaluation says, if the job ends.
    expected: Option<Evaluation>,
    /// The first state, and the present one.
    fresh: Vec<u8>,
    state: Vec<u8>,
}

impl<'t, 'a> Walk<'t, 'a> {
    /// Reads the job's image and starts it.
    pub(super) fn new(trial: &'t mut Trial<'a>, input: &'t JobInput) -> Result<Self, String> {
        let program = trial.filled(PROGRAM_BYTES);
        let read = trial.put_good(&Call::read(&input.image, program))?;
        let program = read.into_iter().next().expect("one is written");
        let (registers, words) = (input.register_bytes(), input.word_bytes());
        let numbers = [input.places.into(), input.interval.into()];
        let state = trial.filled(STATE_BYTES);
        let start = Call::start(&program, numbers, &registers, &words, state);
        for _ in 0..3 {
            trial.put_damaged(start.clone())?;
        }
        let fresh = trial.put_good(&start)?.remove(0);
        let job = Job::parse(&input.bytes()).map_err(|number| format!("refused {}", number))?;
        let expected = evaluate(&job, ENDLESS);
        Ok(Walk {
            trial,
            job,
            input,
            program,
            words,
            expected,
            state: fresh.clone(),
            fresh,
        })
    }

    /// Picks, mostly of running tasks, with refused ones among them and some after the end. Hands
    /// back the order.
    pub(super) fn picks(&mut self) -> Result<Vec<u8>, String> {
        let random = &mut self.trial.random;
        let length = match random.below(8) {
            0 => random.below(4),
            1..=3 => random.below(40),
            4..=6 => random.below(100),
            _ => random.below(300),
        };
        let manner = random.pick(&MANNERS);
        let places = usize::from(self.input.places);
        let mut after_end = random.below(6);
        let mut order = Vec::new();
        let mut last = 0;
        while order.len() < length {
            let running = slots_with(&self.state, RUNNING);
            let random = &mut self.trial.random;
            if running.is_empty() {
                if after_end == 0 {
                    break;
                }
                after_end -= 1;
            }
            let slot = if random.one_in(12) {
                beyond(random, places)
            } else if running.is_empty() || random.one_in(8) {
                random.below(places) as u64
            } else {
                last = manner.next(random, &running, last, places);
                last as u64
            };
            order.push(slot.min(255) as u8);
            self.pick(slot)?;
            // Ended states come once in a job.
            if running.is_empty() || self.trial.random.one_in(5) {
                self.beside()?;
            }
        }
        self.check_end()?;
        Ok(order)
    }

    fn pick(&mut self, slot: u64) -> Result<(), String> {
        let call = Call::pick(&self.program, &self.words, slot, &self.state);
        let answered = self.trial.put(&call)?;
        self.trial
            .coverage
            .count_pick(&self.state, slot, answered.number);
        if answered.number == 0 {
            self.state = answered.written.into_iter().next().expect("a state");
        }
        Ok(())
    }

    /// What an ended job comes to is what the plain evaluation says.
    fn check_end(&self) -> Result<(), String> {
        let machine = model::state::read(&self.state).ok_or("the state's bytes stand for none")?;
        if let Some(end) = machine.end() {
            let left = Evaluation {
                end,
                registers: machine.last_task().registers,
                span: machine.last_task().span,
                work: machine.work(),
            };
            ensure!(
                Some(&left) == self.expected.as_ref(),
                "left {:?}, not {:?}",
                left,
                self.expected
            );
        }
        Ok(())
    }

    /// A call on a copy of the present state: a run, one with something wrong, or one of a state that
    /// was changed and still meets the shape test.
    fn beside(&mut self) -> Result<(), String> {
        let state = self.state.clone();
        let slot = self.likely_slot();
        match self.trial.random.below(8) {
            0 | 1 => {
                let kind = Kind::of(&state);
                let budget = self.budget(kind);
                self.run(kind, &state, budget).map(|_| ())
            }
            2..=4 => {
                let report = self.trial.filled(REPORT_BYTES);
                let (program, words) = (&self.program, &self.words);
                let call = if self.trial.random.one_in(2) {
                    Call::pick(program, words, slot, &state)
                } else {
                    let budget = self.trial.random.below(40) as u64;
                    Call::run(program, words, budget, &state, report)
                };
                (0..6).try_for_each(|_| self.trial.put_damaged(call.clone()).map(|_| ()))
            }
            5 | 6 => {
                let mut redrawn = state;
                redraw(&mut self.trial.random, &self.job.program, &mut redrawn);
                self.changed(Kind::Redrawn, redrawn, slot)
            }
            _ => {
                let mut full = state;
                let left = self.trial.random.below(12) as u64;
                near_the_limit(&mut self.trial.random, left, &mut full);
                self.changed(Kind::NearTheLimit, full, slot)
            }
        }
    }

    /// A pick and a run of a state that was changed and meets the shape test.
    fn changed(&mut self, kind: Kind, state: Vec<u8>, slot: u64) -> Result<(), String> {
        let call = Call::pick(&self.program, &self.words, slot, &state);
        let number = self.trial.put(&call)?.number;
        ensure!(number != 20, "{:?}: refused 20", kind);
        self.trial.coverage.count_pick(&state, slot, number);
        let budget = self.budget(kind);
        self.run(kind, &state, budget).map(|_| ())
    }

    /// A slot with a running task, or any.
    fn likely_slot(&mut self) -> u64 {
        let running = slots_with(&self.state, RUNNING);
        let random = &mut self.trial.random;
        if running.is_empty() || random.one_in(8) {
            random.below(self.input.places.into()) as u64
        } else {
            random.pick(&running) as u64
        }
    }

    /// A budget that a run of such a state spends or ends within in a short time.
    fn budget(&mut self, kind: Kind) -> (Budget, u64) {
        let random = &mut self.trial.random;
        let ends = kind == Kind::NearTheLimit || kind != Kind::Redrawn && self.expected.is_some();
        match random.below(6) {
            0 => (Budget::None, 0),
            1 => (Budget::One, 1),
            2 | 3 => (Budget::Few, random.between(2, 19) as u64),
            4 if ends => (Budget::Greatest, greatest(random)),
            _ => (Budget::Many, random.between(20, 2_000) as u64),
        }
    }

    /// Hands back the new state and the report.
    fn run(
        &mut self,
        kind: Kind,
        state: &[u8],
        (class, budget): (Budget, u64),
    ) -> Result<(Vec<u8>, Vec<u8>), String> {
        let report = self.trial.filled(REPORT_BYTES);
        let call = Call::run(&self.program, &self.words, budget, state, report);
        let mut written = self.trial.put_good(&call)?.into_iter();
        let (state, report) = (written.next(), written.next());
        let (state, report) = (state.expect("a state"), report.expect("a report"));
        self.trial.coverage.count_run(kind, class, budget, &report);
        Ok((state, report))
    }

    /// Runs one after the other from the first state on. They come to what the picks came to, and
    /// to what the job's run from its bytes does.
    pub(super) fn runs(&mut self) -> Result<(), String> {
        let mut state = self.fresh.clone();
        let mut picks = 0;
        for _ in 0..6 {
            let kind = Kind::of(&state);
            let budget = self.budget(kind);
            let (next, report) = self.run(kind, &state, budget)?;
            picks += number_at(&report, 2);
            state = next;
            let work = number_at(&state, 2);
            ensure!(picks == work, "{} picks, and work {}", picks, work);
        }
        if self.expected.is_none() {
            return Ok(());
        }
        let budget = (Budget::Greatest, greatest(&mut self.trial.random));
        let (state, mut report) = self.run(Kind::of(&state), &state, budget)?;
        if Kind::of(&self.state) == Kind::Ended {
            ensure!(state == self.state, "picks and runs leave different states");
        }
        let mut at_once = vec![0; REPORT_BYTES];
        let answer = engine::job_run(&self.input.bytes(), u64::MAX, &mut at_once);
        ensure!(answer.is_ok(), "the job's run: {:?}", answer);
        // Its picks are all of them.
        report[16..24].copy_from_slice(&number_at(&state, 2).to_le_bytes());
        ensure!(report == at_once, "another report than the job's run");
        Ok(())
    }

    /// The engine's replay of the order leaves the same state.
    pub(super) fn replay(&mut self, order: &[u8]) -> Result<(), String> {
        let mut state = vec![0; STATE_BYTES];
        let answer = engine::replay(&self.input.bytes(), order, &mut state);
        ensure!(answer == 0, "the replay is refused {}", answer);
        ensure!(state == self.state, "the replay leaves another state");
        Ok(())
    }
}

/// A budget that no work comes to, though it would if it were cut to size.
fn greatest(random: &mut Random) -> u64 {
    random.pick(&[u64::MAX, 1 << 32, 1 << 32 | 2, 1 << 63])
}

/// A number that is no slot's, though it would be if it were cut to size.
fn beyond(random: &mut Random, places: usize) -> u64 {
    let slot = random.below(places) as u64;
    let nearest = places as u64;
    random.pick(&[
        nearest,
        nearest + 1,
        nearest.max(64),
        255,
        slot | 1 << 8,
        slot | 1 << 16,
        slot | 1 << 32,
        slot | 1 << 63,
        u64::MAX,
    ])
}
