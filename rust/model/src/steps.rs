//! Reader, writer, start, pick and run over byte buffers, as C calls them. A refusal changes no
//! buffer.
//!
//! A buffer whose length is no multiple of eight has the cells, registers or words that are whole,
//! and is answered with no at question 15, in that question's place.

use crate::job::Report;
use crate::machine::{Call, Machine};
use crate::task::REGISTERS;
use crate::{cells, image, numbers, question, report, shape, state, Program};

/// Length of the start registers.
pub const REGISTERS_BYTES: usize = numbers::BYTES * REGISTERS;

/// Reads an image: questions 1 to 9, then 15. `program` then holds its cells, unused ones 0.
pub fn program_read(image: &[u8], program: &mut [u8]) -> Result<(), u8> {
    let read = image::read(image)?;
    check_lengths(program.len() == cells::BYTES)?;
    cells::write(&read, program);
    Ok(())
}

/// Writes a program: questions 3, 4 and 6 to 9, then 15. `image`, of the image's length, then holds it.
pub fn program_write(program: &[u8], image: &mut [u8]) -> Result<(), u8> {
    let read = cells::read(program)?;
    check_lengths(program.len() == cells::BYTES && image.len() == read.image_len())?;
    read.encode(image);
    Ok(())
}

/// Starts a job: questions 3, 4 and 6 to 9, then 11 to 15. `state` then holds its first state.
pub fn start(
    program: &[u8],
    places: u64,
    interval: u64,
    registers: &[u8],
    words: &[u8],
    state: &mut [u8],
) -> Result<(), u8> {
    cells::read(program)?;
    let machine = Machine::fresh(places, interval, &integers(registers), &integers(words))?;
    check_lengths(
        program.len() == cells::BYTES
            && registers.len() == REGISTERS_BYTES
            && is_whole(words)
            && state.len() == state::BYTES,
    )?;
    state::write(&machine, state);
    Ok(())
}

/// Carries out a pick: questions 3, 4, 6 to 9, 14, 15 and 20 to 24. `state` then holds the new state.
pub fn pick(program: &[u8], words: &[u8], slot: u64, state: &mut [u8]) -> Result<(), u8> {
    let read = cells::read(program)?;
    let words_read = integers(words);
    let call = Call::of_checked(&read, &words_read)?;
    check_lengths(program.len() == cells::BYTES && is_whole(words) && state.len() == state::BYTES)?;
    let mut machine = shaped(&read, state)?;
    machine.pick_in(call, slot.try_into().unwrap_or(usize::MAX))?;
    state::write(&machine, state);
    Ok(())
}

/// Goes on from a state within a budget of picks: a pick's questions up to 20. `state` then holds the
/// new state, and `report` what the run comes to.
pub fn run(
    program: &[u8],
    words: &[u8],
    budget: u64,
    state: &mut [u8],
    report: &mut [u8],
) -> Result<(), u8> {
    let read = cells::read(program)?;
    let words_read = integers(words);
    let call = Call::of_checked(&read, &words_read)?;
    check_lengths(
        program.len() == cells::BYTES
            && is_whole(words)
            && state.len() == state::BYTES
            && report.len() == report::BYTES,
    )?;
    let mut machine = shaped(&read, state)?;
    let (answer, picks) = machine.run_in(call, budget);
    state::write(&machine, state);
    report::write(&Report::of(&machine, answer, picks), report);
    Ok(())
}

fn integers(buffer: &[u8]) -> Vec<i64> {
    numbers::of(buffer).map(|number| number as i64).collect()
}

fn is_whole(buffer: &[u8]) -> bool {
    buffer.len() % numbers::BYTES == 0
}

/// Question 15.
fn check_lengths(right: bool) -> Result<(), u8> {
    if right {
        Ok(())
    } else {
        Err(question::BUFFER)
    }
}

/// Question 20.
fn shaped(program: &Program, bytes: &[u8]) -> Result<Machine, u8> {
    state::read(bytes)
        .filter(|machine| shape::meets(machine, program))
        .ok_or(question::SHAPE)
}

#[cfg(test)]
mod tests;
