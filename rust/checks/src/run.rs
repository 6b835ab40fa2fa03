//! Many images put to model and engine.

use crate::compare::compare;
use crate::counts::Counts;
use crate::coverage::Coverage;
use crate::generate::case;
use crate::random::Random;
use crate::shares;
use std::fmt;
use std::ops::Range;

/// The first case, by number, in which model and engine differ.
#[derive(Debug)]
pub struct Difference {
    pub seed: u64,
    pub number: u64,
    pub what: String,
}

impl fmt::Display for Difference {
    fn fmt(&self, f: &mut fmt::Formatter) -> fmt::Result {
        let case = case(self.seed, self.number);
        let bytes = case.image.len().min(400);
        writeln!(f, "seed {} case {}: {}", self.seed, self.number, self.what)?;
        writeln!(
            f,
            "{:?}, damaged {:?}, image of {} bytes, out of {} bytes",
            case.shape,
            case.damaged,
            case.image.len(),
            case.out_len
        )?;
        writeln!(f, "image begins {:02x?}", &case.image[..bytes])?;
        write!(
            f,
            "again: cargo run --release --bin soak -- 1 {} {}",
            self.seed, self.number
        )
    }
}

/// Runs one case.
pub fn run_case(seed: u64, number: u64, coverage: &mut Coverage) -> Result<(), Difference> {
    let case = case(seed, number);
    // Not the numbers that the image was made from.
    let salt = Random::new(!seed, number).bits();
    match compare(&case.image, case.out_len, salt) {
        Ok(answers) => {
            coverage.count(&case, &answers);
            Ok(())
        }
        Err(what) => Err(Difference { seed, number, what }),
    }
}

/// Runs the cases of these numbers. A difference ends it; the one of least number is handed back.
pub fn run(seed: u64, numbers: Range<u64>) -> Result<Counts, Difference> {
    shares::run(numbers, |number, coverage| run_case(seed, number, coverage))
        .map_err(|(_, difference)| difference)
}
