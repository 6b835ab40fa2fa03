//! The long run: `soak_jobs [COUNT [SEED [FIRST]]]` runs COUNT jobs of SEED from job FIRST on.

use checks::soak::Soak;

fn main() {
    let soak = Soak {
        name: "soak_jobs",
        count: 1_000_000,
        enough: 20_000,
    };
    soak.run(checks::budgets::run);
}
