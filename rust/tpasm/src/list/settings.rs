//! A job's settings as text.

use super::line::Line;
use crate::settings::Settings;
use model::{question, Job, MAX_WORDS};

const WORDS_IN_LINE: usize = 8;
const WORD_BYTES: usize = 8;

/// Start's questions about them.
pub fn check(job: &Job) -> Result<(), u8> {
    if Settings::allowed_places(job.places.into()).is_none() {
        return Err(question::PLACES);
    }
    if Settings::allowed_interval(job.interval.into()).is_none() {
        return Err(question::INTERVAL);
    }
    if job.words.len() > MAX_WORDS {
        return Err(question::WORDS);
    }
    Ok(())
}

/// They stand in the file from `at` on. Registers that are 0 have no line.
pub fn lines(job: &Job, at: usize) -> Vec<Line> {
    let line = |text: String, offset: usize, bytes: &[u8]| Line::at(text, "", offset, bytes);
    let registers_at = at + 3;
    let words_at = registers_at + WORD_BYTES * job.registers.len() + 2;
    let interval = job.interval.to_le_bytes();
    let mut lines = vec![
        line(format!("places {}", job.places), at, &[job.places]),
        line(format!("interval {}", job.interval), at + 1, &interval),
    ];
    for (number, integer) in job.registers.iter().enumerate() {
        if *integer != 0 {
            let text = format!("set r{} = {}", number, integer);
            let offset = registers_at + WORD_BYTES * number;
            lines.push(line(text, offset, &integer.to_le_bytes()));
        }
    }
    for (number, words) in job.words.chunks(WORDS_IN_LINE).enumerate() {
        let words: Vec<String> = words.iter().map(i64::to_string).collect();
        let offset = words_at + WORD_BYTES * WORDS_IN_LINE * number;
        // The bytes of several words would make the line too long.
        lines.push(line(format!("words {}", words.join(" ")), offset, &[]));
    }
    lines
}
