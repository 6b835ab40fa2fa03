//! The long run: `soak_orders [COUNT [SEED [FIRST]]]` tries COUNT jobs of SEED from job FIRST on.

use checks::soak::Soak;

fn main() {
    let soak = Soak {
        name: "soak_orders",
        count: 1_000_000,
        enough: 20_000,
    };
    soak.run(checks::orders::run);
}
