//! The long run: `soak_replay [COUNT [SEED [FIRST]]]` replays COUNT jobs of SEED from job FIRST on.

use checks::soak::Soak;

fn main() {
    let soak = Soak {
        name: "soak_replay",
        count: 100_000,
        enough: 20_000,
    };
    soak.run(checks::replay::run);
}
