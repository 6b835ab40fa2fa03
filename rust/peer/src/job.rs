//! A job's bytes, and the questions put to them. Nothing is copied but the start registers.

use model::{question, MAX_PLACES, MAX_WORDS, REGISTERS};

/// A job that start accepts.
pub struct Job<'a> {
    pub image: &'a [u8],
    pub places: u8,
    pub interval: u16,
    pub registers: [i64; REGISTERS],
    /// The call record's bytes.
    pub words: &'a [u8],
}

const WORD: usize = 8;
/// Places, interval, registers and word count.
const SETTINGS: usize = 1 + 2 + WORD * REGISTERS + 2;

impl<'a> Job<'a> {
    /// Question 10, the reader's, then start's own.
    pub fn read(input: &'a [u8]) -> Result<Self, u8> {
        let job = Job::parse(input).ok_or(question::INPUT)?;
        model::check(job.image)?;
        if !(job.places.is_power_of_two() && u64::from(job.places) <= MAX_PLACES) {
            return Err(question::PLACES);
        }
        if (1..8).contains(&job.interval) {
            return Err(question::INTERVAL);
        }
        if job.words.len() > WORD * MAX_WORDS {
            return Err(question::WORDS);
        }
        Ok(job)
    }

    /// None: the input does not end exactly after its last word.
    fn parse(input: &'a [u8]) -> Option<Self> {
        let (image_len, rest) = half(input)?;
        let (image, rest) = split(rest, image_len.into())?;
        let (settings, words) = split(rest, SETTINGS)?;
        let (places, settings) = settings.split_first()?;
        let (interval, settings) = half(settings)?;
        let (bytes, settings) = split(settings, WORD * REGISTERS)?;
        let (word_count, _) = half(settings)?;
        if words.len() != WORD * usize::from(word_count) {
            return None;
        }
        let mut registers = [0; REGISTERS];
        for (register, bytes) in registers.iter_mut().zip(bytes.chunks_exact(WORD)) {
            *register = i64::from_le_bytes(bytes.try_into().ok()?);
        }
        Some(Job {
            image,
            places: *places,
            interval,
            registers,
            words,
        })
    }
}

/// The word of this index, counted from 0, if it is inside the record.
pub fn word(words: &[u8], index: i64) -> Option<i64> {
    let at = usize::try_from(index).ok()?.checked_mul(WORD)?;
    let bytes = words.get(at..at.checked_add(WORD)?)?;
    Some(i64::from_le_bytes(bytes.try_into().ok()?))
}

fn split(bytes: &[u8], at: usize) -> Option<(&[u8], &[u8])> {
    if at > bytes.len() {
        return None;
    }
    Some(bytes.split_at(at))
}

fn half(bytes: &[u8]) -> Option<(u16, &[u8])> {
    let (half, rest) = split(bytes, 2)?;
    Some((u16::from_le_bytes([half[0], half[1]]), rest))
}
