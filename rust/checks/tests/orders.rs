//! Random jobs: orders of picks on the model's machine against its plain evaluation, and refusals
//! at the run program's door.

use checks::jobs::refused;
use checks::orders::run;
use checks::shares::expect_all_met;

const SEED: u64 = 0x6f72_6465_7273;
const JOBS: u64 = 40_000;
const REFUSED_JOBS: u64 = 20_000;

#[test]
fn seeded_jobs() {
    expect_all_met(run(SEED, 0..JOBS), JOBS);
}

#[test]
fn refused_jobs() {
    let mut met = [0; 15];
    for number in 0..REFUSED_JOBS {
        let case = refused(SEED, number);
        let expected = format!("refused {}\n", case.number);
        assert_eq!(model::job::report(&case.bytes), expected, "job {}", number);
        met[usize::from(case.number)] += 1;
    }
    println!("refusals by number: {:?}", met);
    // Sixteen registers are always there, so 13 is never answered.
    for number in (1..=12).chain([14]) {
        assert!(met[number] > 0, "nothing refused {}", number);
    }
}
