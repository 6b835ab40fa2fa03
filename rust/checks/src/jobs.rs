//! Seeded jobs: those that start accepts, with programs of several makes, and refused ones.

mod calls;
mod mishap;
mod nested;
mod refused;
mod tree;
mod wild;

pub use refused::{refused, Refused};

use crate::assemble::JobInput;
use crate::product;
use crate::random::Random;
use model::{VERSION_1, VERSION_2};

#[derive(Clone, Copy, Debug, PartialEq, Eq)]
pub enum Make {
    /// Forks, loops and joins nested in the text.
    Nested,
    /// One block that forks itself to a given depth.
    Tree,
    /// Document 002's product loop.
    Product,
    /// Subroutines, called from several places and by themselves.
    Calls,
    /// Instructions at random.
    Wild,
}

pub const MAKES: [Make; 5] = [
    Make::Nested,
    Make::Tree,
    Make::Product,
    Make::Calls,
    Make::Wild,
];
pub const INTERVALS: [u16; 6] = [0, 8, 9, 10, 1000, 65_535];

#[derive(Clone, Debug)]
pub struct JobCase {
    pub make: Make,
    pub input: JobInput,
}

/// The job of this number under this seed.
pub fn job(seed: u64, number: u64) -> JobCase {
    let random = &mut Random::new(seed, number);
    let make = match random.below(20) {
        0..=7 => Make::Nested,
        8..=11 => Make::Tree,
        12 => Make::Product,
        13..=16 => Make::Calls,
        _ => Make::Wild,
    };
    let version = random.pick(&[VERSION_1, VERSION_2]);
    let halvings = random.between(0, 6);
    let words: Vec<i64> = (0..random.pick(&[0, 0, 1, 3, 8]))
        .map(|_| integer(random))
        .collect();
    let mut registers = [0; 16];
    for register in &mut registers {
        *register = integer(random);
    }
    let image = match make {
        Make::Nested => nested::program(random, version, halvings, words.len()),
        Make::Tree => tree::program(random, version, halvings, words.len()),
        Make::Product => {
            registers[usize::from(product::A)] = random.below(120) as i64;
            product::product_of(version)
        }
        Make::Calls => calls::program(random, halvings),
        Make::Wild => wild::program(random, version, words.len()),
    };
    let input = JobInput {
        image,
        places: 1 << halvings,
        interval: random.pick(&INTERVALS),
        registers,
        words,
    };
    JobCase { make, input }
}

/// Says in which job engine and model differ and how, what they were handed beside it, and how the
/// program `soak` runs it again.
pub(crate) fn difference(
    soak: &str,
    seed: u64,
    number: u64,
    what: &str,
    beside: &str,
    job: &[u8],
) -> String {
    let begin = &job[..job.len().min(400)];
    format!(
        "seed {seed} job {number}: {what}\n\
         {beside}\n\
         job begins {begin:02x?}\n\
         again: cargo run --release --bin {soak} -- 1 {seed} {number}"
    )
}

/// Small ones mostly, with the ends of the range.
fn integer(random: &mut Random) -> i64 {
    match random.below(8) {
        0 => random.pick(&[0, 1, -1, i64::MAX, i64::MIN]),
        1 => random.bits() as i64,
        _ => random.below(20) as i64 - 5,
    }
}
