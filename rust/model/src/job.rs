//! The run program: a job's bytes, what a run of it comes to, and the text that it prints. And the
//! dispatcher over the same bytes.

use crate::machine::{check_lanes, Answer, Call, Dispatched, End, Machine};
use crate::task::{Registers, REGISTERS, ZEROS};
use crate::{image, question, report, text, Program};

/// The run program's budget.
pub const BUDGET: u64 = 1_000_000;

/// What a job's bytes say. The numbers are any of their width: start's questions are put later.
#[derive(Clone, Debug, PartialEq, Eq)]
pub struct Job {
    pub program: Program,
    pub places: u8,
    pub interval: u16,
    pub registers: [i64; REGISTERS],
    /// The call record.
    pub words: Vec<i64>,
}

/// The job's fields before the image is read.
struct Fields<'a> {
    image: &'a [u8],
    places: u8,
    interval: u16,
    registers: [i64; REGISTERS],
    words: Vec<i64>,
}

/// Bytes not read yet. None: there are fewer than asked for.
struct Input<'a>(&'a [u8]);

impl<'a> Input<'a> {
    fn bytes(&mut self, count: usize) -> Option<&'a [u8]> {
        if count > self.0.len() {
            return None;
        }
        let (bytes, rest) = self.0.split_at(count);
        self.0 = rest;
        Some(bytes)
    }

    fn array<const N: usize>(&mut self) -> Option<[u8; N]> {
        self.bytes(N)?.try_into().ok()
    }

    fn half(&mut self) -> Option<u16> {
        self.array().map(u16::from_le_bytes)
    }

    fn integer(&mut self) -> Option<i64> {
        self.array().map(i64::from_le_bytes)
    }
}

/// None: the input does not end exactly after its last word.
fn fields(input: &[u8]) -> Option<Fields<'_>> {
    let mut input = Input(input);
    let image_len = input.half()?;
    let image = input.bytes(image_len.into())?;
    let [places] = input.array()?;
    let interval = input.half()?;
    let mut registers = [0; REGISTERS];
    for register in &mut registers {
        *register = input.integer()?;
    }
    let word_count = input.half()?;
    let words = (0..word_count)
        .map(|_| input.integer())
        .collect::<Option<_>>()?;
    if !input.0.is_empty() {
        return None;
    }
    Some(Fields {
        image,
        places,
        interval,
        registers,
        words,
    })
}

impl Job {
    /// Question 10, then the reader's.
    pub fn parse(input: &[u8]) -> Result<Job, u8> {
        let fields = fields(input).ok_or(question::INPUT)?;
        Ok(Job {
            program: image::read(fields.image)?,
            places: fields.places,
            interval: fields.interval,
            registers: fields.registers,
            words: fields.words,
        })
    }

    /// The state of a fresh start, after start's questions.
    pub fn start(&self) -> Result<Machine, u8> {
        Machine::start(
            &self.program,
            self.places.into(),
            self.interval.into(),
            &self.registers,
            &self.words,
        )
    }
}

/// What a budgeted run of a job comes to.
#[derive(Clone, Debug, PartialEq, Eq)]
pub struct Report {
    /// None: the budget is spent, or the work stands at its limit. Then the span is 0, and the
    /// registers are integers 0.
    pub end: Option<End>,
    pub picks: u64,
    pub work: u32,
    pub span: u32,
    pub registers: Registers,
}

impl Report {
    /// Of a run that has left the machine so.
    pub fn of(machine: &Machine, answer: Answer, picks: u64) -> Self {
        let (span, registers) = match answer {
            Answer::Ended => (machine.last_task().span, machine.last_task().registers),
            Answer::Spent => (0, ZEROS),
        };
        Report {
            end: machine.end(),
            picks,
            work: machine.work(),
            span,
            registers,
        }
    }
}

/// Runs a job from a fresh start. The numbers of the questions put to it: 10; the reader's; start's
/// own. Each is put once: the reader has put the program's, and a fresh state meets the shape test.
pub fn run(input: &[u8], budget: u64) -> Result<Report, u8> {
    let job = Job::parse(input)?;
    let mut machine = Machine::fresh(
        job.places.into(),
        job.interval.into(),
        &job.registers,
        &job.words,
    )?;
    let call = Call::of_checked(&job.program, &job.words)?;
    let (answer, picks) = machine.run_in(call, budget);
    Ok(Report::of(&machine, answer, picks))
}

/// Dispatches a job from a fresh start over so many lanes, within a budget of rounds. The questions
/// are a run's, then 41. Also hands back the rounds begun.
pub fn dispatch(input: &[u8], lanes: u64, rounds: u64) -> Result<(Report, u64), u8> {
    Fresh::of(input)?.dispatch(lanes, rounds)
}

/// The same, with the report's bytes written over `report`. Its length is asked for, by 15, before
/// the lanes are; a refusal leaves it as it was.
pub fn dispatch_into(input: &[u8], lanes: u64, rounds: u64, report: &mut [u8]) -> Result<(), u8> {
    let fresh = Fresh::of(input)?;
    if report.len() != report::DISPATCH_BYTES {
        return Err(question::BUFFER);
    }
    let (outcome, rounds) = fresh.dispatch(lanes, rounds)?;
    report::write_dispatched(&outcome, rounds, report);
    Ok(())
}

/// A job that start has accepted, and its first state.
struct Fresh {
    job: Job,
    machine: Machine,
}

impl Fresh {
    fn of(input: &[u8]) -> Result<Self, u8> {
        let job = Job::parse(input)?;
        let machine = Machine::fresh(
            job.places.into(),
            job.interval.into(),
            &job.registers,
            &job.words,
        )?;
        Ok(Fresh { job, machine })
    }

    fn dispatch(mut self, lanes: u64, rounds: u64) -> Result<(Report, u64), u8> {
        let call = Call::of_checked(&self.job.program, &self.job.words)?;
        let lanes = check_lanes(lanes)?;
        let Dispatched {
            answer,
            picks,
            rounds,
        } = self.machine.dispatch_in(call, lanes, rounds);
        Ok((Report::of(&self.machine, answer, picks), rounds))
    }
}

/// What the run program prints for this input.
pub fn report(input: &[u8]) -> String {
    text(input, BUDGET)
}

/// What the run program would print with this budget.
pub fn text(input: &[u8], budget: u64) -> String {
    text_of(&run(input, budget))
}

/// What the run program prints where a run comes to this.
pub fn text_of(outcome: &Result<Report, u8>) -> String {
    let mut text = String::new();
    text::write(outcome, &mut text);
    text
}

#[cfg(test)]
mod tests;
