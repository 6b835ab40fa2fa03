//! The command line of the long runs: `NAME [COUNT [SEED [FIRST]]]`.

use crate::counts::Counts;
use std::env;
use std::fmt::Display;
use std::ops::Range;
use std::process::exit;

/// A long run: its program's name, and how many cases it runs unless told.
pub struct Soak {
    pub name: &'static str,
    pub count: u64,
    /// Fewer cases than this may miss something by chance.
    pub enough: u64,
}

impl Soak {
    fn argument(&self, position: usize, default: u64) -> u64 {
        match env::args().nth(position) {
            None => default,
            Some(text) => text.parse().unwrap_or_else(|_| {
                eprintln!("usage: {} [COUNT [SEED [FIRST]]]", self.name);
                exit(2)
            }),
        }
    }

    /// Runs the cases and prints what they covered; status 1 for a difference or a gap.
    pub fn run<E: Display>(&self, run: impl FnOnce(u64, Range<u64>) -> Result<Counts, E>) {
        let count = self.argument(1, self.count);
        let seed = self.argument(2, 1);
        let first = self.argument(3, 0);
        let numbers = first..first.saturating_add(count);
        let counts = run(seed, numbers).unwrap_or_else(|difference| {
            println!("{}", difference);
            exit(1)
        });
        println!("{}", counts);
        let missing = counts.missing();
        if count >= self.enough && !missing.is_empty() {
            println!("not covered: {}", missing.join("; "));
            exit(1);
        }
        println!(
            "seed {}: {} {}, no difference",
            seed, counts.cases, counts.noun
        );
    }
}
