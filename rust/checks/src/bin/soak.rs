//! The long run: `soak [COUNT [SEED [FIRST]]]` compares COUNT images of SEED from case FIRST on.

use checks::soak::Soak;

fn main() {
    let soak = Soak {
        name: "soak",
        count: 10_000_000,
        enough: 200_000,
    };
    soak.run(checks::run::run);
}
