//! The engine's speed beside that of two implementations in Rust.
//!
//! Prints `ratio NAME VALUE`, the other's time divided by the engine's: above 1.0 the engine is
//! faster. Both get the same bytes, do the same work on them and run in turns in the same process,
//! the other built for release. What the two come to is compared.
//!
//! A whole job is beside the peer, `rust/peer`, which is made for nothing else: decoded, depth first,
//! nothing counted for each instruction. It knows no picks, no states and no orders, and its answers
//! are the model's. So calls on images and states, and those that go by picks or rounds, are beside
//! the model, `rust/model`.
//!
//! What is timed beside the peer:
//!
//! - `run-serial`, `run-calls`, `run-figure2`, `run-forks`, `run-waits`, `run-rest`: a whole run of a
//!   million picks, from the job's bytes to the report's. Both put question 10, the reader's and
//!   start's own once. All but `run-calls` are programs of version 1.
//! - `job`, `job-small`: a whole call, from the job's bytes to the text in a lent buffer, with the same
//!   questions: 256 instructions, words and picks; and program F, nine picks.
//!
//! Beside the model:
//!
//! - `read`: the image check of the largest program, questions 1 to 9. Neither side makes a program.
//! - `write`: the rewrite of the same image: check, program, and its image in a lent buffer.
//! - `pick`: one pick with all its questions, from the bytes of program, call record and state to the
//!   new state's.
//! - `dispatch`: the job of `run-figure2` in rounds over four lanes, as many as end it, from its bytes
//!   to the report with the rounds.
//! - `replay`: an order of 65,536 bytes on a job of four running tasks, from the job's bytes and the
//!   order to the state's bytes. The model plays it in place.
//!
//! No lent buffer is cleared between calls.
//!
//! Then comes the engine's run on a state's bytes beside its run of the same job's, and last how the
//! time of a pick inside a run grows, with the number of picks and with P.
//!
//! Times hang on where the code comes to lie in a program. Machine instructions do not: `bench lines`
//! prints each line's name with what its calls are divided by, and `bench call NAME SIDE CALLS` makes
//! so many calls of one side (`engine` or `other`) and nothing else, for `scripts/counts.sh` to count.

mod jobs;
mod lines;
mod timing;

use lines::{lines, Line, Steps, PICKS};
use std::process;
use timing::{black_box, calls_in_turns, in_turns, print, timed, Times};

fn time(line: &mut Line) -> Times {
    let (rounds, calls) = (line.rounds, line.calls);
    let times = calls_in_turns(rounds, calls, &mut line.other, &mut line.engine);
    (line.agree)();
    times
}

/// A line's times and its ratio.
fn compare(line: &mut Line) {
    let times = time(line);
    print(line.name, line.what, line.beside, &times);
    if let Some(each) = &line.each {
        let nanoseconds = |time: f64| time / each.count as f64 * 1e9;
        println!(
            "{:12} {} {}s: {} {:.2} ns, engine {:.2} ns each",
            line.name,
            each.count,
            each.what,
            line.beside.name(),
            nanoseconds(times.other),
            nanoseconds(times.engine)
        );
    }
}

/// The engine's run on a state's bytes beside its run of the same job from the job's bytes.
fn print_run_beside_job_run(what: &str, job: &[u8]) {
    const ROUNDS: usize = 21;
    let steps = Steps::of(job);
    let mut state = steps.state.clone();
    let [mut of_state, mut of_job] = [[0; engine::REPORT_BYTES]; 2];
    let times = in_turns(
        ROUNDS,
        || {
            timed(|| {
                assert!(engine::job_run(black_box(job), PICKS, black_box(&mut of_job)).is_ok())
            })
        },
        || {
            state.copy_from_slice(&steps.state);
            let (program, words) = (black_box(&steps.program), black_box(&steps.words));
            let (state, report) = (black_box(&mut state), black_box(&mut of_state));
            timed(|| assert!(engine::run(program, words, PICKS, state, report).is_ok()))
        },
    );
    // Both are spent after these picks.
    assert!(of_state == of_job && checks::numbers::number_at(&of_job, 2) == PICKS);
    println!(
        "{:12} job {:11.2} µs, state {:10.2} µs: {} picks of {}, {:.3} times as long",
        "run-state",
        times.other * 1e6,
        times.engine * 1e6,
        PICKS,
        what,
        1.0 / times.ratio
    );
}

/// A line of nanoseconds for each pick.
fn print_growth(what: &str, job: Vec<u8>) {
    const ROUNDS: usize = 7;
    let mut line = lines::run("growth", "", ROUNDS, job);
    let times = time(&mut line);
    let picks = line.each.map_or(1, |each| each.count);
    let nanoseconds = |time: f64| time / picks as f64 * 1e9;
    println!(
        "{:22} {:>9} picks: peer {:6.2} ns, engine {:6.2} ns a pick",
        what,
        picks,
        nanoseconds(times.other),
        nanoseconds(times.engine)
    );
}

fn print_growths() {
    for picks in [100_000, 1_000_000, 10_000_000] {
        print_growth("serial, P 1", jobs::serial(picks));
    }
    for picks in [100_000, 1_000_000, 10_000_000] {
        print_growth("forks, P 64", jobs::forks(picks));
    }
    for places in [1, 2, 4, 8, 16, 32, 64] {
        let what = format!("figure 2, P {}", places);
        print_growth(&what, jobs::figure2(1_000_000, places));
    }
}

fn compare_all() {
    for line in lines() {
        compare(&mut line());
    }
    print_run_beside_job_run("one task's loop, P 1", &jobs::serial(2 * PICKS));
    print_run_beside_job_run("Figure 2, P 64", &jobs::figure2(2 * PICKS, 64));
    print_run_beside_job_run("forks, P 64", &jobs::forks(2 * PICKS));
    print_growths();
}

fn print_lines() {
    for line in lines() {
        let line = line();
        let (count, what) = match line.each {
            Some(each) => (each.count, each.what),
            None => (1, "call"),
        };
        println!("{} {} {} {}", line.name, line.beside.name(), count, what);
    }
}

/// So many calls of one side of a line; an error is a message.
fn call(name: &str, side: &str, calls: &str) -> Result<(), String> {
    let line = lines()
        .into_iter()
        .map(|line| line())
        .find(|line| line.name == name);
    let mut line = line.ok_or_else(|| format!("there is no line {}", name))?;
    let side = match side {
        "engine" => &mut line.engine,
        "other" => &mut line.other,
        _ => return Err(format!("{} is neither engine nor other", side)),
    };
    let calls: u32 = calls
        .parse()
        .map_err(|_| format!("{} is no number of calls", calls))?;
    (0..calls).for_each(|_| side());
    Ok(())
}

fn main() {
    let arguments: Vec<String> = std::env::args().skip(1).collect();
    let arguments: Vec<&str> = arguments.iter().map(String::as_str).collect();
    let done = match arguments[..] {
        [] => Ok(compare_all()),
        ["lines"] => Ok(print_lines()),
        ["call", name, side, calls] => call(name, side, calls),
        _ => Err("bench | bench lines | bench call NAME engine|other CALLS".to_string()),
    };
    if let Err(message) = done {
        eprintln!("bench: {}", message);
        process::exit(2);
    }
}
