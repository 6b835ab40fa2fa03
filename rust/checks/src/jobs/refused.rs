//! Jobs that are refused, with one thing wrong or several.

use super::job;
use crate::generate;
use crate::layout::HEADER;
use crate::random::Random;
use model::{question, MAX_WORDS};

pub struct Refused {
    pub bytes: Vec<u8>,
    /// The number of the first question that is answered with no.
    pub number: u8,
}

/// A version that there is not, and a number of blocks that there may not be.
fn spoil_header(image: &mut [u8], random: &mut Random) {
    if image.len() >= HEADER {
        let version: u16 = random.pick(&[0, 3, 256, 257, u16::MAX]);
        image[3..5].copy_from_slice(&version.to_le_bytes());
        image[5] = random.pick(&[0, 129]);
    }
}

/// The refused job of this number under this seed.
pub fn refused(seed: u64, number: u64) -> Refused {
    let random = &mut Random::new(seed.rotate_left(32), number);
    let mut input = job(seed, number).input;
    // In the order in which they are asked.
    let mut wrong = Vec::new();
    let bad_length = random.one_in(4);
    if bad_length {
        wrong.push(question::INPUT);
    }
    if random.one_in(2) {
        input.image = generate::case(seed, number).image;
        if random.one_in(12) {
            spoil_header(&mut input.image, random);
        }
        wrong.extend(model::read(&input.image).err());
    }
    if random.one_in(3) || wrong.is_empty() {
        input.places = random.pick(&[0, 3, 5, 63, 65, 96, 128, 255]);
        wrong.push(question::PLACES);
    }
    if random.one_in(2) {
        // Alone, too.
        if wrong == [question::PLACES] && random.one_in(2) {
            input.places = 4;
            wrong.clear();
        }
        input.interval = random.between(1, 7) as u16;
        wrong.push(question::INTERVAL);
    }
    if random.one_in(8) {
        if matches!(wrong[..], [question::PLACES | question::INTERVAL]) && random.one_in(2) {
            input.places = 4;
            input.interval = 8;
            wrong.clear();
        }
        let count = random.pick(&[MAX_WORDS + 1, MAX_WORDS + 2, 8192, 65_535]);
        input.words = vec![1; count];
        wrong.push(question::WORDS);
    }
    let mut bytes = input.bytes();
    if bad_length {
        match random.below(4) {
            0 => bytes.truncate(random.below(bytes.len())),
            1 => {
                bytes.pop();
            }
            2 => bytes.push(0),
            _ => bytes.extend(vec![0; random.between(1, 100)]),
        }
    }
    Refused {
        bytes,
        number: wrong[0],
    }
}
