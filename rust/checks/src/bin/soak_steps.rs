//! The long run: `soak_steps [COUNT [SEED [FIRST]]]` takes COUNT jobs of SEED from job FIRST on, pick
//! by pick.

use checks::soak::Soak;

fn main() {
    let soak = Soak {
        name: "soak_steps",
        count: 100_000,
        enough: 20_000,
    };
    soak.run(checks::steps::run);
}
