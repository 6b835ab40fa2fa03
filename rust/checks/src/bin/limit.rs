//! The true work limit on the engine, question 24's: one run of 4,294,967,294 picks, about half a
//! minute, and then the last pick in two ways; and rounds of two picks up to the limit, as long again,
//! of which it cuts the last short.

use checks::hand::{of_picks, two_for_ever};
use engine::{DISPATCH_BYTES, PROGRAM_BYTES, REPORT_BYTES, STATE_BYTES};
use model::{question, Job, WORK_LIMIT};

/// Places of numbers in a state and in a report, as c/tpal.h has them.
const WORK: usize = 2;
const SLOT_0_STATUS: usize = 3;
const SLOT_0_PC: usize = 6;
const HALTED: u64 = 3;
const RUNNING: u64 = 1;
const REPORT_END: usize = 0;
const REPORT_PICKS: usize = 2;
const REPORT_WORK: usize = 3;
const REPORT_ROUNDS: usize = 53;
const SPENT: u64 = 0;

fn number(bytes: &[u8], place: usize) -> u64 {
    u64::from_le_bytes(bytes[8 * place..8 * place + 8].try_into().unwrap())
}

fn put(bytes: &mut [u8], place: usize, number: u64) {
    bytes[8 * place..8 * place + 8].copy_from_slice(&number.to_le_bytes());
}

fn main() {
    picks();
    rounds();
}

/// Two rounds of one pick make the second task. What is left is an odd number.
fn rounds() {
    let limit = u64::from(WORK_LIMIT);
    let full = (limit - 2) / 2;
    assert_eq!(2 + 2 * full, limit - 1);
    let mut report = vec![0; DISPATCH_BYTES];
    engine::job_dispatch(&two_for_ever().bytes(), 2, u64::MAX, &mut report).unwrap();
    assert_eq!(number(&report, REPORT_END), SPENT);
    assert_eq!(number(&report, REPORT_PICKS), limit);
    assert_eq!(number(&report, REPORT_WORK), limit);
    assert_eq!(number(&report, REPORT_ROUNDS), 2 + full + 1);
    println!(
        "and in rounds: the last of {} is cut short, and counted",
        2 + full + 1
    );
}

fn picks() {
    let limit = u64::from(WORK_LIMIT);
    let job = of_picks(limit).bytes();
    let parsed = Job::parse(&job).expect("the job is as laid out");
    let mut program = vec![0; PROGRAM_BYTES];
    engine::program_read(&model::write(&parsed.program).unwrap(), &mut program).unwrap();
    let registers: Vec<u8> = parsed
        .registers
        .iter()
        .flat_map(|r| r.to_le_bytes())
        .collect();
    let mut state = vec![0; STATE_BYTES];
    let mut report = vec![0; REPORT_BYTES];
    engine::start(&program, 1, 0, &registers, &[], &mut state).unwrap();

    engine::run(&program, &[], limit - 1, &mut state, &mut report).unwrap();
    assert_eq!(number(&report, REPORT_END), SPENT);
    assert_eq!(number(&report, REPORT_PICKS), limit - 1);
    assert_eq!(number(&state, WORK), limit - 1);

    // The last pick halts: the job has ended with the work at its limit.
    let mut ended = state.clone();
    engine::pick(&program, &[], 0, &mut ended).unwrap();
    assert_eq!(number(&ended, WORK), limit);
    assert_eq!(number(&ended, SLOT_0_STATUS), HALTED);
    assert_eq!(
        engine::pick(&program, &[], 0, &mut ended),
        Err(question::NOT_ENDED)
    );

    // With the loop to go on, the same pick leaves the task running: 24, and a run is spent.
    put(&mut state, SLOT_0_PC, 0);
    engine::pick(&program, &[], 0, &mut state).unwrap();
    assert_eq!(number(&state, WORK), limit);
    assert_eq!(number(&state, SLOT_0_STATUS), RUNNING);
    assert_eq!(
        engine::pick(&program, &[], 0, &mut state),
        Err(question::WORK)
    );
    engine::run(&program, &[], u64::MAX, &mut state, &mut report).unwrap();
    assert_eq!(number(&report, REPORT_END), SPENT);
    assert_eq!(number(&report, REPORT_PICKS), 0);
    assert_eq!(number(&report, REPORT_WORK), limit);
    println!(
        "the work limit holds: {} picks carried out, the next one refused 24",
        limit
    );
}
