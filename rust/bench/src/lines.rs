//! The benchmark's lines: the same work as two calls, the engine's and the other's.

use crate::jobs;
use crate::timing::{black_box, Beside};
use checks::assemble::JobInput;
use checks::{report, state};
use std::cell::RefCell;
use std::rc::Rc;

/// Larger than any run here.
pub const BUDGET: u64 = 1_000_000_000;

/// The picks of a long line.
pub const PICKS: u64 = 1_000_000;

/// The work's place in a state.
const WORK: usize = 2;

type Call = Box<dyn FnMut()>;

/// What a call's time, or its machine instructions, are divided by where they are told for each of
/// something.
pub struct Each {
    pub count: u64,
    pub what: &'static str,
}

pub struct Line {
    pub name: &'static str,
    pub what: &'static str,
    pub beside: Beside,
    /// How often the two are timed in turns, and how many calls are timed as one.
    pub rounds: usize,
    pub calls: u32,
    pub each: Option<Each>,
    pub other: Call,
    pub engine: Call,
    /// After both were called: what they left is the same.
    pub agree: Box<dyn Fn()>,
}

type Shared<T> = Rc<RefCell<T>>;

/// Two buffers for the two sides, allocated once and not cleared between calls.
fn buffers(length: usize) -> [Shared<Vec<u8>>; 2] {
    [(); 2].map(|_| Rc::new(RefCell::new(vec![0; length])))
}

fn same(buffers: &[Shared<Vec<u8>>; 2]) -> bool {
    *buffers[0].borrow() == *buffers[1].borrow()
}

/// A side that works on a lent buffer.
fn on_buffer(buffer: &Shared<Vec<u8>>, mut call: impl FnMut(&mut [u8]) + 'static) -> Call {
    let buffer = Rc::clone(buffer);
    Box::new(move || call(black_box(&mut buffer.borrow_mut()[..])))
}

/// The image check, of the largest program.
fn read() -> Line {
    let image = checks::generate::valid_image(1, model::VERSION_1, 128, 1024);
    let models = image.clone();
    Line {
        name: "read",
        what: "the image check, largest program",
        beside: Beside::Model,
        rounds: 401,
        calls: 40,
        each: None,
        other: Box::new(move || assert!(black_box(model::check(black_box(&models))).is_ok())),
        engine: Box::new(move || {
            assert!(black_box(engine::image_check(black_box(&image))).is_ok());
        }),
        agree: Box::new(|| ()),
    }
}

/// The rewrite of the same image.
fn write() -> Line {
    let image = checks::generate::valid_image(1, model::VERSION_1, 128, 1024);
    let out = buffers(image.len());
    let [models, engines, expected] = [(); 3].map(|_| image.clone());
    Line {
        name: "write",
        what: "the rewrite, which reads the image first",
        beside: Beside::Model,
        rounds: 401,
        calls: 40,
        each: None,
        other: on_buffer(&out[0], move |out| {
            assert!(model::rewrite(black_box(&models), out).is_ok());
        }),
        engine: on_buffer(&out[1], move |out| {
            assert!(engine::image_rewrite(black_box(&engines), out).is_ok());
        }),
        agree: Box::new(move || assert!(same(&out) && *out[1].borrow() == expected)),
    }
}

/// A job's buffers, as its steps are lent them.
#[derive(Clone)]
pub struct Steps {
    pub program: Vec<u8>,
    pub words: Vec<u8>,
    /// The first state.
    pub state: Vec<u8>,
}

impl Steps {
    pub fn of(job: &[u8]) -> Self {
        let job = model::Job::parse(job).expect("the job is as laid out");
        let mut program = vec![0; engine::PROGRAM_BYTES];
        model::cells::write(&job.program, &mut program);
        let words = job.words.iter().flat_map(|word| word.to_le_bytes());
        Steps {
            program,
            words: words.collect(),
            state: state::bytes(&job.start().expect("start accepts the job")),
        }
    }
}

type Pick = fn(&[u8], &[u8], u64, &mut [u8]) -> Result<(), u8>;

/// A pick from bytes to bytes: the program, the call record and the state are read anew each time. The
/// program loops for ever, and the call record is the longest.
fn pick() -> Line {
    let mut input = JobInput::new(checks::layout::even_blocks(128, 1024), 64, 0);
    input.words = vec![1; model::MAX_WORDS];
    let steps = Steps::of(&input.bytes());
    let states = [(); 2].map(|_| Rc::new(RefCell::new(steps.state.clone())));
    let side = |function: Pick, state: &Shared<Vec<u8>>| {
        let Steps { program, words, .. } = steps.clone();
        on_buffer(state, move |state| {
            let answer = function(black_box(&program), black_box(&words), 0, state);
            assert!(black_box(answer).is_ok());
        })
    };
    Line {
        name: "pick",
        what: "from bytes to bytes, with all its questions, largest program",
        beside: Beside::Model,
        rounds: 201,
        calls: 40,
        each: None,
        other: side(model::steps::pick, &states[0]),
        engine: side(engine::pick, &states[1]),
        agree: Box::new(move || assert!(same(&states))),
    }
}

/// A whole run of a job that ends, from its bytes to its report's.
pub fn run(name: &'static str, what: &'static str, rounds: usize, job: Vec<u8>) -> Line {
    let expected = model::job::run(&job, BUDGET).expect("the job is accepted");
    assert!(expected.end.is_some(), "the job ends");
    let reports = buffers(engine::REPORT_BYTES);
    let peers = job.clone();
    Line {
        name,
        what,
        beside: Beside::Peer,
        rounds,
        calls: 1,
        each: Some(Each {
            count: expected.picks,
            what: "instruction",
        }),
        other: on_buffer(&reports[0], move |report| {
            assert!(peer::run_into(black_box(&peers), BUDGET, report).is_ok());
        }),
        engine: on_buffer(&reports[1], move |report| {
            assert!(engine::job_run(black_box(&job), BUDGET, report).is_ok());
        }),
        agree: Box::new(move || {
            assert!(same(&reports) && reports[1].borrow()[..] == report::bytes(&expected)[..]);
        }),
    }
}

/// Dispatches of a job that ends, from its bytes to the report with the rounds.
fn dispatch() -> Line {
    const LANES: u64 = 4;
    let job = jobs::figure2(PICKS, 64);
    let expected = model::job::run(&job, BUDGET).expect("the job is accepted");
    let reports = buffers(engine::DISPATCH_BYTES);
    let models = job.clone();
    Line {
        name: "dispatch",
        what: "Figure 2 over four lanes, P 64, interval 64",
        beside: Beside::Model,
        rounds: 21,
        calls: 1,
        each: Some(Each {
            count: expected.picks,
            what: "pick",
        }),
        other: on_buffer(&reports[0], move |report| {
            let job = black_box(&models);
            assert!(model::job::dispatch_into(job, LANES, BUDGET, report).is_ok());
        }),
        engine: on_buffer(&reports[1], move |report| {
            assert!(engine::job_dispatch(black_box(&job), LANES, BUDGET, report).is_ok());
        }),
        agree: Box::new(move || {
            let report = reports[1].borrow();
            let ended = checks::numbers::number_at(&report, 0) != report::SPENT;
            assert!(same(&reports) && ended);
        }),
    }
}

/// Plays an order in place, refused picks passed over, as the engine's replay does. The program's
/// questions are put thrice, which is nothing beside a long order.
fn replay_on_model(job: &[u8], order: &[u8], state: &mut [u8]) -> Result<(), u8> {
    let job = model::Job::parse(job)?;
    let mut machine = job.start()?;
    let call = model::Call::new(&job.program, &job.words)?;
    machine.play(call, order);
    model::state::write(&machine, state);
    Ok(())
}

/// Replays, from the bytes of a job and an order to the state's in a lent buffer.
fn replay() -> Line {
    const ORDER: u64 = 65_536;
    /// Until the last of the four tasks runs.
    const REFUSED: u64 = 5;
    let job = jobs::four(ORDER);
    let order = jobs::four_in_turn(ORDER);
    let states = buffers(engine::STATE_BYTES);
    let models = (job.clone(), order.clone());
    Line {
        name: "replay",
        what: "an order of 65,536 picks, four tasks that loop, P 4",
        beside: Beside::Model,
        rounds: 101,
        calls: 1,
        each: Some(Each {
            count: ORDER,
            what: "pick",
        }),
        other: on_buffer(&states[0], move |state| {
            let (job, order) = black_box(&models);
            assert!(replay_on_model(job, order, state).is_ok());
        }),
        engine: on_buffer(&states[1], move |state| {
            assert!(engine::replay(black_box(&job), black_box(&order), state) == 0);
        }),
        agree: Box::new(move || {
            let work = checks::numbers::number_at(&states[1].borrow(), WORK);
            assert!(same(&states) && work == ORDER - REFUSED);
        }),
    }
}

/// Whole calls, from a job's bytes to its text in a lent buffer. The peer's text is written by the
/// model, from its report.
fn job(name: &'static str, what: &'static str, job: Vec<u8>) -> Line {
    let texts: [Shared<Vec<u8>>; 2] = buffers(engine::TEXT_BYTES);
    let written = Rc::new(RefCell::new(String::with_capacity(engine::TEXT_BYTES)));
    let length = Rc::new(RefCell::new(0));
    let (peers, text) = (job.clone(), Rc::clone(&written));
    let engines = Rc::clone(&length);
    Line {
        name,
        what,
        beside: Beside::Peer,
        rounds: 201,
        calls: 20,
        each: None,
        other: Box::new(move || {
            let mut text = text.borrow_mut();
            text.clear();
            let outcome = peer::run(black_box(&peers), BUDGET);
            model::text::write(&outcome, black_box(&mut *text));
        }),
        engine: on_buffer(&texts[1], move |out| {
            *engines.borrow_mut() = engine::job_text(black_box(&job), BUDGET, out);
        }),
        agree: Box::new(move || {
            let peers = written.borrow();
            assert!(peers.starts_with("end halt"));
            let engines = texts[1].borrow();
            assert!(engines[..*length.borrow() as usize] == *peers.as_bytes());
        }),
    }
}

/// The rounds of a run line.
const RUN_ROUNDS: usize = 21;

/// All of them, each made where it is asked for: the large jobs take room.
pub fn lines() -> Vec<fn() -> Line> {
    vec![
        read,
        write,
        pick,
        || {
            run(
                "run-serial",
                "one task's loop, P 1",
                RUN_ROUNDS,
                jobs::serial(PICKS),
            )
        },
        || {
            let what = "a loop that calls a subroutine from two places, P 1";
            run("run-calls", what, RUN_ROUNDS, jobs::calls(PICKS))
        },
        || {
            let what = "002's Figure 2, P 64, interval 64";
            run("run-figure2", what, RUN_ROUNDS, jobs::figure2(PICKS, 64))
        },
        || {
            run(
                "run-forks",
                "forks at every chance, P 64",
                RUN_ROUNDS,
                jobs::forks(PICKS),
            )
        },
        || {
            let what = "one uneven fork, P 64: one side waits, the other loops";
            run("run-waits", what, RUN_ROUNDS, jobs::waits(PICKS))
        },
        || {
            let what = "64 tasks, P 64: one loops, the others wait";
            run("run-rest", what, RUN_ROUNDS, jobs::rest(PICKS))
        },
        dispatch,
        replay,
        || {
            job(
                "job",
                "256 instructions, words and picks to the text",
                jobs::middling(),
            )
        },
        || job("job-small", "F to the text, 9 picks", jobs::small()),
    ]
}
