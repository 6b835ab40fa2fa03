//! The long run: `soak_dispatch [COUNT [SEED [FIRST]]]` runs COUNT jobs of SEED from job FIRST on.

use checks::soak::Soak;

fn main() {
    let soak = Soak {
        name: "soak_dispatch",
        count: 100_000,
        enough: 6_000,
    };
    soak.run(checks::dispatch::run);
}
