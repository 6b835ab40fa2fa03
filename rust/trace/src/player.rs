//! The engine on one job: its exports with the job's buffers.

use crate::state::State;
use engine::{PROGRAM_BYTES, REPORT_BYTES, STATE_BYTES};
use model::Job;

/// A job that the engine accepts.
pub struct Player {
    job: Vec<u8>,
    program: Vec<u8>,
    words: Vec<u8>,
    first: State,
}

fn bytes(integers: &[i64]) -> Vec<u8> {
    let bytes = integers.iter().flat_map(|integer| integer.to_le_bytes());
    bytes.collect()
}

impl Player {
    /// The error is the number of the question that was answered with no.
    pub fn new(job: &[u8]) -> Result<Self, u8> {
        engine::job_run(job, 0, &mut [0; REPORT_BYTES])?;
        let parts = Job::parse(job)?;
        let image = &job[2..2 + parts.program.image_len()];
        let mut program = vec![0; PROGRAM_BYTES];
        engine::program_read(image, &mut program)?;
        let words = bytes(&parts.words);
        let mut first = vec![0; STATE_BYTES];
        let (places, interval) = (parts.places.into(), parts.interval.into());
        let registers = bytes(&parts.registers);
        engine::start(&program, places, interval, &registers, &words, &mut first)?;
        Ok(Player {
            job: job.to_vec(),
            program,
            words,
            first: State(first),
        })
    }

    pub fn job(&self) -> &[u8] {
        &self.job
    }

    /// The state of a fresh start.
    pub fn first(&self) -> &State {
        &self.first
    }

    /// A pick of this slot. A refusal leaves the state as it was.
    pub fn pick(&self, state: &mut State, slot: usize) -> Result<(), u8> {
        engine::pick(&self.program, &self.words, slot as u64, &mut state.0)
    }

    /// The state after this many picks in passes over the slots, or after as many as there are.
    pub fn run(&self, picks: u64) -> State {
        let mut state = self.first.clone();
        let report = &mut [0; REPORT_BYTES];
        let run = engine::run(&self.program, &self.words, picks, &mut state.0, report);
        run.expect("the engine has left this state");
        state
    }

    /// The state after this order of picks, refused ones passed over.
    pub fn replay(&self, order: &[u8]) -> State {
        let mut state = self.first.clone();
        let no = engine::replay(&self.job, order, &mut state.0);
        assert_eq!(no, 0, "the engine has accepted this job");
        state
    }
}
