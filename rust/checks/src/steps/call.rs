//! One call of one of the five functions, put to engine and model.

use crate::lent::{salt_of, Lent};
use crate::{numbers, report, state};
use std::borrow::Cow;

/// The functions.
#[derive(Clone, Copy, Debug, PartialEq, Eq, PartialOrd, Ord)]
pub enum Door {
    Read,
    Write,
    Start,
    Pick,
    Run,
}

pub const DOORS: [Door; 5] = [Door::Read, Door::Write, Door::Start, Door::Pick, Door::Run];

/// What a buffer holds.
#[derive(Clone, Copy, Debug, PartialEq, Eq, PartialOrd, Ord)]
pub enum Buffer {
    Image,
    Program,
    Registers,
    Words,
    State,
    Report,
}

impl Door {
    /// Its buffers in their order: those that it reads, then those that it writes.
    pub fn buffers(self) -> &'static [Buffer] {
        use Buffer::*;
        match self {
            Door::Read => &[Image, Program],
            Door::Write => &[Program, Image],
            Door::Start => &[Program, Registers, Words, State],
            Door::Pick => &[Program, Words, State],
            Door::Run => &[Program, Words, State, Report],
        }
    }

    fn written(self) -> usize {
        match self {
            Door::Run => 2,
            _ => 1,
        }
    }

    /// The numbers that it answers besides 0.
    pub fn refusals(self) -> &'static [u8] {
        match self {
            Door::Read => &[1, 2, 3, 4, 5, 6, 7, 8, 9, 15],
            Door::Write => &[3, 4, 6, 7, 8, 9, 15],
            Door::Start => &[3, 4, 6, 7, 8, 9, 11, 12, 13, 14, 15],
            Door::Pick => &[3, 4, 6, 7, 8, 9, 14, 15, 20, 21, 22, 23, 24],
            Door::Run => &[3, 4, 6, 7, 8, 9, 14, 15, 20],
        }
    }
}

/// A call, with its buffers' bytes before it.
#[derive(Clone)]
pub struct Call<'a> {
    pub door: Door,
    /// A start's places and interval, a pick's slot, a run's budget.
    pub numbers: [u64; 2],
    /// In the order of the door's.
    pub buffers: Vec<Cow<'a, [u8]>>,
}

/// What both answered, and the written buffers after it.
pub struct Answered {
    pub number: u8,
    pub written: Vec<Vec<u8>>,
}

type ReadOrWrite = fn(&[u8], &mut [u8]) -> Result<(), u8>;
type Start = fn(&[u8], u64, u64, &[u8], &[u8], &mut [u8]) -> Result<(), u8>;
type Pick = fn(&[u8], &[u8], u64, &mut [u8]) -> Result<(), u8>;
type Run = fn(&[u8], &[u8], u64, &mut [u8], &mut [u8]) -> Result<(), u8>;

/// The five functions of one of the two.
struct Functions {
    read: ReadOrWrite,
    write: ReadOrWrite,
    start: Start,
    pick: Pick,
    run: Run,
}

const MODEL: Functions = Functions {
    read: model::steps::program_read,
    write: model::steps::program_write,
    start: model::steps::start,
    pick: model::steps::pick,
    run: model::steps::run,
};

const ENGINE: Functions = Functions {
    read: engine::program_read,
    write: engine::program_write,
    start: engine::start,
    pick: engine::pick,
    run: engine::run,
};

impl Functions {
    fn call(
        &self,
        door: Door,
        numbers: [u64; 2],
        lent: &[&[u8]],
        written: &mut [&mut [u8]],
    ) -> Result<(), u8> {
        let [number, interval] = numbers;
        match (door, lent, written) {
            (Door::Read, [image], [program]) => (self.read)(image, program),
            (Door::Write, [program], [image]) => (self.write)(program, image),
            (Door::Start, [program, registers, words], [state]) => {
                (self.start)(program, number, interval, registers, words, state)
            }
            (Door::Pick, [program, words], [state]) => (self.pick)(program, words, number, state),
            (Door::Run, [program, words], [state, report]) => {
                (self.run)(program, words, number, state, report)
            }
            _ => unreachable!("a call has its door's buffers"),
        }
    }
}

impl<'a> Call<'a> {
    pub fn read(image: &'a [u8], program: Vec<u8>) -> Self {
        Call::new(Door::Read, [0; 2], vec![image.into(), program.into()])
    }

    pub fn write(program: &'a [u8], image: Vec<u8>) -> Self {
        Call::new(Door::Write, [0; 2], vec![program.into(), image.into()])
    }

    pub fn start(
        program: &'a [u8],
        numbers: [u64; 2],
        registers: &'a [u8],
        words: &'a [u8],
        state: Vec<u8>,
    ) -> Self {
        let lent = [program, registers, words].map(Cow::from);
        let mut buffers = lent.to_vec();
        buffers.push(state.into());
        Call::new(Door::Start, numbers, buffers)
    }

    pub fn pick(program: &'a [u8], words: &'a [u8], slot: u64, state: &'a [u8]) -> Self {
        let buffers = [program, words, state].map(Cow::from);
        Call::new(Door::Pick, [slot, 0], buffers.to_vec())
    }

    pub fn run(
        program: &'a [u8],
        words: &'a [u8],
        budget: u64,
        state: &'a [u8],
        report: Vec<u8>,
    ) -> Self {
        let lent = [program, words, state].map(Cow::from);
        let mut buffers = lent.to_vec();
        buffers.push(report.into());
        Call::new(Door::Run, [budget, 0], buffers)
    }

    fn new(door: Door, numbers: [u64; 2], buffers: Vec<Cow<'a, [u8]>>) -> Self {
        Call {
            door,
            numbers,
            buffers,
        }
    }

    /// The place of this buffer among the call's.
    pub fn place(&self, buffer: Buffer) -> Option<usize> {
        let mut buffers = self.door.buffers().iter();
        buffers.position(|&other| other == buffer)
    }

    pub fn buffer(&self, buffer: Buffer) -> Option<&[u8]> {
        self.place(buffer).map(|place| &*self.buffers[place])
    }

    pub fn buffer_mut(&mut self, buffer: Buffer) -> Option<&mut Vec<u8>> {
        let place = self.place(buffer)?;
        Some(self.buffers[place].to_mut())
    }

    /// What the model answers, and the written buffers after it.
    fn models(&self) -> Answered {
        let (lent, written) = self
            .buffers
            .split_at(self.buffers.len() - self.door.written());
        let lent: Vec<&[u8]> = lent.iter().map(|bytes| &**bytes).collect();
        let mut after: Vec<Vec<u8>> = written.iter().map(|bytes| bytes.to_vec()).collect();
        let mut slices: Vec<&mut [u8]> = after.iter_mut().map(|bytes| &mut bytes[..]).collect();
        let answer = MODEL.call(self.door, self.numbers, &lent, &mut slices);
        Answered {
            number: answer.err().unwrap_or(0),
            written: after,
        }
    }

    /// Puts the call to both; `salt` places the buffers. The error says in words how the two differ.
    pub fn compare(&self, salt: u64) -> Result<Answered, String> {
        let expected = self.models();
        let buffers = self.buffers.iter().enumerate();
        let mut all: Vec<Lent> = buffers
            .map(|(number, bytes)| Lent::holding(bytes, salt_of(salt, number)))
            .collect();
        let first_written = all.len() - self.door.written();
        let (lent, written) = all.split_at_mut(first_written);
        let lent: Vec<&[u8]> = lent.iter_mut().map(|lent| &*lent.slice()).collect();
        let mut slices: Vec<&mut [u8]> = written.iter_mut().map(Lent::slice).collect();
        let answer = ENGINE.call(self.door, self.numbers, &lent, &mut slices);

        let number = answer.err().unwrap_or(0);
        if number != expected.number {
            return Err(format!(
                "{:?}: the model answers {}, the engine {}",
                self.door, expected.number, number
            ));
        }
        for (place, lent) in all.iter_mut().enumerate() {
            let buffer = self.door.buffers()[place];
            // What is not written, and all that a refused call was lent, is as it was.
            let bytes = match place.checked_sub(first_written) {
                Some(place) if number == 0 => &expected.written[place],
                _ => &*self.buffers[place],
            };
            if lent.slice() != bytes {
                let what = difference(buffer, bytes, lent.slice());
                return Err(format!(
                    "{:?} answered {}, and the {:?}'s {}",
                    self.door, number, buffer, what
                ));
            }
            if !lent.margins_are_untouched() {
                return Err(format!(
                    "{:?} changed bytes beside the {:?}",
                    self.door, buffer
                ));
            }
        }
        Ok(expected)
    }
}

/// How two buffers of one length differ, in words.
fn difference(buffer: Buffer, expected: &[u8], found: &[u8]) -> String {
    let meaning = match buffer {
        Buffer::State => state::meaning,
        Buffer::Report => report::meaning,
        _ => |index| format!("cell {}", index),
    };
    let in_numbers = match buffer {
        Buffer::Image => None,
        _ if expected.len() % 8 != 0 => None,
        _ => numbers::first_difference(expected, found, meaning),
    };
    in_numbers.unwrap_or_else(|| {
        let mut bytes = expected.iter().zip(found);
        let at = bytes.position(|(expected, found)| expected != found);
        format!("byte {:?} is wrong", at)
    })
}

impl std::fmt::Display for Call<'_> {
    fn fmt(&self, f: &mut std::fmt::Formatter) -> std::fmt::Result {
        write!(f, "{:?} with numbers {:?}", self.door, self.numbers)?;
        for (buffer, bytes) in self.door.buffers().iter().zip(&self.buffers) {
            write!(f, ", {:?} of {} bytes", buffer, bytes.len())?;
        }
        Ok(())
    }
}
