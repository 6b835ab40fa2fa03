//! Jobs in steps: start, single picks and runs on a state's bytes, and the program buffer that they
//! are lent, put to the engine's exports and to the model. Every call's answer and every buffer are
//! compared.

pub mod call;
pub mod damage;
mod redraw;
mod walk;

use crate::counts::Counts;
use crate::jobs::{difference, job};
use crate::random::Random;
use crate::steps_coverage::StepsCoverage;
use crate::{generate, shares};
use call::Call;
use engine::PROGRAM_BYTES;
use std::ops::Range;
use walk::{Trial, Walk};

/// An image, valid or damaged, read into a program buffer and written back.
fn check_image(trial: &mut Trial, image: &[u8]) -> Result<(), String> {
    let program = trial.filled(PROGRAM_BYTES);
    let read = Call::read(image, program);
    if trial.random.one_in(8) {
        trial.put_damaged(read.clone())?;
    }
    let answered = trial.put(&read)?;
    if answered.number != 0 {
        return Ok(());
    }
    let program = &answered.written[0];
    let write = Call::write(program, trial.filled(image.len()));
    let written = trial.put_good(&write)?;
    ensure!(written[0] == image, "the image is not written back");
    for _ in 0..2 {
        let answered = trial.put_damaged(write.clone())?;
        if answered.number == 0 {
            check_written(trial, &answered.written[0])?;
        }
    }
    Ok(())
}

/// An image that was written is read, and comes of what is read.
fn check_written(trial: &mut Trial, image: &[u8]) -> Result<(), String> {
    let program = trial.filled(PROGRAM_BYTES);
    let read = trial.put_good(&Call::read(image, program))?;
    let again = trial.filled(image.len());
    let written = trial.put_good(&Call::write(&read[0], again))?;
    ensure!(written[0] == image, "a written image is not written again");
    Ok(())
}

/// Runs one case: an image, and a job.
pub fn run_case(seed: u64, number: u64, coverage: &mut StepsCoverage) -> Result<(), String> {
    let input = job(seed, number).input;
    let image = generate::case(seed, number).image;
    let mut trial = Trial {
        // Not the numbers that the job was made from.
        random: Random::new(!seed, number),
        coverage,
    };
    let checked = check_image(&mut trial, &image).and_then(|()| {
        let mut walk = Walk::new(&mut trial, &input)?;
        let order = walk.picks()?;
        walk.runs()?;
        if number % 4 == 0 {
            walk.replay(&order)?;
        }
        Ok(())
    });
    let beside = format!("image of {} bytes beside it", image.len());
    let in_words =
        |what: String| difference("soak_steps", seed, number, &what, &beside, &input.bytes());
    checked.map_err(in_words)?;
    coverage.count_job(u16::from_le_bytes([input.image[3], input.image[4]]));
    Ok(())
}

/// Runs the cases of these numbers. What differs ends it.
pub fn run(seed: u64, numbers: Range<u64>) -> Result<Counts, String> {
    shares::run(numbers, |number, coverage| run_case(seed, number, coverage))
        .map_err(|(_, what)| what)
}
