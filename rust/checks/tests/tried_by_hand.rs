//! Document 01's 'Tried by hand' and document 02's examples: for the engine's start, picks and runs
//! and the model's, for the plain evaluation, and for the run program with the engine's job text and
//! the model's beside it.

use checks::assemble::{halt, mov, op, pop, push, Annotation, Assembly, JobInput, Operand};
use checks::hand::{by_zero, call_and_return, f, f_with, f_with_stack, figure_2, outside, pushes};
use checks::layout::even_blocks;
use checks::numbers::number_at;
use checks::product::C;
use checks::report as reports;
use checks::run_program::report;
use checks::state;
use engine::{PROGRAM_BYTES, REPORT_BYTES, STATE_BYTES};
use model::job::Report;
use model::opcode::{ADD, DIVIDE, LESS, REMAINDER};
use model::plain::{evaluate, Evaluation};
use model::{Answer, End, Job, Value};
use Operand::{Int, Reg};

/// Jobs with more work than this are run on the engine, but not picked: each pick puts all questions.
const PICKED: u32 = 1_000;

/// What the plain evaluation says, after the run and picks of the lowest and of the highest slot
/// have come to the same, on the model and on the engine.
fn outcome(input: &JobInput) -> Evaluation {
    let job = Job::parse(&input.bytes()).expect("the input is as laid out");
    let expected = evaluate(&job, 100_000).expect("the job ends");
    let engine = Engine::new(input);

    let mut machine = job.start().expect("start accepts the job");
    let answer = machine.run(&job.program, &job.words, 100_000);
    assert_eq!(answer, Ok((Answer::Ended, expected.work.into())));
    assert_eq!(left_by(&machine), expected);
    assert!(engine.run(&expected) == state::bytes(&machine));

    for highest in [false, true] {
        let mut machine = job.start().unwrap();
        while machine.end().is_none() {
            let mut slots: Vec<usize> = (0..machine.places()).collect();
            if highest {
                slots.reverse();
            }
            let picked = slots
                .into_iter()
                .find(|&slot| machine.pick(&job.program, &job.words, slot).is_ok());
            assert!(picked.is_some(), "some slot can be picked before the end");
        }
        assert_eq!(left_by(&machine), expected);
        if expected.work <= PICKED {
            assert!(engine.pick(highest) == state::bytes(&machine));
        }
    }
    expected
}

/// A job started on the engine, by its exports.
struct Engine {
    places: u64,
    program: Vec<u8>,
    words: Vec<u8>,
    fresh: Vec<u8>,
}

impl Engine {
    fn new(input: &JobInput) -> Self {
        let mut engine = Engine {
            places: input.places.into(),
            program: vec![0xa5; PROGRAM_BYTES],
            words: input.word_bytes(),
            fresh: vec![0xa5; STATE_BYTES],
        };
        let read = engine::program_read(&input.image, &mut engine.program);
        assert_eq!(read, Ok(()));
        let started = engine::start(
            &engine.program,
            engine.places,
            input.interval.into(),
            &input.register_bytes(),
            &engine.words,
            &mut engine.fresh,
        );
        assert_eq!(started, Ok(()));
        engine
    }

    /// The state that a run to the end leaves, once its report is the expected one.
    fn run(&self, expected: &Evaluation) -> Vec<u8> {
        let mut state = self.fresh.clone();
        let mut report = [0xa5; REPORT_BYTES];
        let ran = engine::run(&self.program, &self.words, 100_000, &mut state, &mut report);
        assert_eq!(ran, Ok(()));
        let expected = Report {
            end: Some(expected.end),
            picks: expected.work.into(),
            work: expected.work,
            span: expected.span,
            registers: expected.registers,
        };
        assert_eq!(report[..], reports::bytes(&expected)[..]);
        state
    }

    /// The state that picks of the lowest or highest running task leave in the end.
    fn pick(&self, highest: bool) -> Vec<u8> {
        const RUNNING: u64 = 1;
        let mut state = self.fresh.clone();
        loop {
            let status = |slot: &u64| number_at(&state, 3 + 164 * *slot as usize);
            let mut running = (0..self.places).filter(|slot| status(slot) == RUNNING);
            let slot = if highest {
                running.next_back()
            } else {
                running.next()
            };
            match slot {
                None => return state,
                Some(slot) => {
                    let picked = engine::pick(&self.program, &self.words, slot, &mut state);
                    assert_eq!(picked, Ok(()));
                }
            }
        }
    }
}

fn left_by(machine: &model::Machine) -> Evaluation {
    Evaluation {
        end: machine.end().expect("the job has ended"),
        registers: machine.last_task().registers,
        span: machine.last_task().span,
        work: machine.work(),
    }
}

#[test]
fn f_prints_this() {
    let expected = "\
end halt
work 9
span 7
r0 int 12
r1 rec 2 0
r2 int 7
r3 int 0
r4 int 0
r5 int 0
r6 int 0
r7 int 0
r8 int 0
r9 int 0
r10 int 0
r11 int 0
r12 int 0
r13 int 0
r14 int 0
r15 int 0
";
    outcome(&f(2));
    for places in [2, 4, 8, 16, 32, 64] {
        assert_eq!(report(&f(places).bytes()), expected);
    }
}

fn fault_report(number: u8, work: u32, span: u32) -> String {
    let registers: String = (0..16).map(|r| format!("r{} int 0\n", r)).collect();
    format!(
        "end fault {}\nwork {}\nspan {}\n{}",
        number, work, span, registers
    )
}

#[test]
fn f_with_one_place_faults() {
    assert_eq!(outcome(&f(1)).end, End::Fault(37));
    assert_eq!(report(&f(1).bytes()), fault_report(37, 2, 2));
}

#[test]
fn f_with_two_faults_keeps_the_parents_in_either_order() {
    let input = f_with(outside(), by_zero());
    let job = Job::parse(&input.bytes()).unwrap();
    for order in [[0, 0, 0, 1], [0, 0, 1, 0]] {
        let mut machine = job.start().unwrap();
        for slot in order {
            assert_eq!(machine.end(), None);
            assert_eq!(machine.pick(&job.program, &job.words, slot), Ok(()));
        }
        assert_eq!(machine.end(), Some(End::Fault(33)));
        assert_eq!((machine.work(), machine.last_task().span), (4, 3));
        assert_eq!(machine.last_task().registers, [Value::Int(0); 16]);
    }
    assert_eq!(outcome(&input).end, End::Fault(33));
    assert_eq!(report(&input.bytes()), fault_report(33, 4, 3));

    let swapped = f_with(by_zero(), outside());
    assert_eq!(report(&swapped.bytes()), fault_report(32, 4, 3));
    let same_as_f = f_with(op(ADD, 0, 0, Int(1)), mov(0, Int(7)));
    assert_eq!(same_as_f, f(2));
}

#[test]
fn f_with_a_fault_in_one_side() {
    let childs = f_with(op(ADD, 0, 0, Int(1)), by_zero());
    assert_eq!(report(&childs.bytes()), fault_report(32, 5, 4));
    let parents = f_with(by_zero(), mov(0, Int(7)));
    assert_eq!(report(&parents.bytes()), fault_report(32, 5, 4));
}

/// End, c, work and span of the product loop with b 5.
fn product_of(a: i64, places: u8, interval: u16) -> (End, Value, u32, u32) {
    let outcome = outcome(&figure_2(a, places, interval));
    let c = outcome.registers[usize::from(C)];
    (outcome.end, c, outcome.work, outcome.span)
}

#[test]
fn product_with_interval_0() {
    for places in [1, 2, 64] {
        let expected = (End::Halt, Value::Int(10), 13, 13);
        assert_eq!(product_of(2, places, 0), expected);
    }
    assert_eq!(product_of(3, 2, 0), (End::Halt, Value::Int(15), 17, 17));
    assert_eq!(product_of(4, 2, 0), (End::Halt, Value::Int(20), 21, 21));
}

#[test]
fn product_with_interval_8() {
    assert_eq!(product_of(3, 2, 8), (End::Halt, Value::Int(15), 19, 19));
    assert_eq!(product_of(4, 2, 8), (End::Halt, Value::Int(20), 39, 33));
    // With one place no promotion, so not even the handler's two instructions.
    assert_eq!(product_of(3, 1, 8), (End::Halt, Value::Int(15), 17, 17));
}

/// Document 02, request 1.
#[test]
fn the_beat_comes_on_the_interval() {
    // The counter stands at 10 when 2 are left, and at 14 when 1 is left.
    assert_eq!(product_of(4, 2, 9), (End::Halt, Value::Int(20), 39, 33));
    assert_eq!(product_of(4, 2, 10), (End::Halt, Value::Int(20), 39, 33));
    assert_eq!(product_of(4, 2, 11), (End::Halt, Value::Int(20), 23, 23));
}

#[test]
fn product_of_many() {
    for places in [1, 2, 4, 8, 16, 32, 64] {
        for interval in [0, 8, 9, 20, 65_535] {
            for a in [0, 1, 5, 100, 1000] {
                let (end, c, _, _) = product_of(a, places, interval);
                assert_eq!((end, c), (End::Halt, Value::Int(5 * a)));
            }
        }
    }
}

/// Document 02, request 4.
#[test]
fn a_call_and_its_return() {
    let called = outcome(&call_and_return());
    assert_eq!((called.end, called.work, called.span), (End::Halt, 11, 11));
    assert_eq!(called.registers[..2], [Value::Int(10), Value::Label(3)]);
    let text = report(&call_and_return().bytes());
    assert!(text.starts_with("end halt\nwork 11\nspan 11\nr0 int 10\nr1 lab 3\nr2 int 0\n"));
}

/// Document 02, request 4.
#[test]
fn stacks_across_a_fork() {
    let joined = outcome(&f_with_stack(&[push(Int(7)), push(Int(8))]));
    assert_eq!((joined.end, joined.work, joined.span), (End::Halt, 12, 10));
    assert_eq!(joined.registers[3..5], [Value::Int(20), Value::Int(10)]);
    let childs = f_with_stack(&[pop(2)]);
    assert_eq!(outcome(&childs).end, End::Fault(43));
    assert_eq!(report(&childs.bytes()), fault_report(43, 6, 5));
}

/// Document 02, request 4.
#[test]
fn the_33rd_value() {
    assert_eq!(outcome(&pushes(32)).end, End::Halt);
    assert_eq!(outcome(&pushes(33)).end, End::Fault(42));
    assert_eq!(report(&pushes(33).bytes()), fault_report(42, 33, 33));
    assert_eq!(outcome(&f_with_stack(&[push(Int(1)); 32])).end, End::Halt);
    let childs = outcome(&f_with_stack(&[push(Int(1)); 33]));
    assert_eq!((childs.end, childs.work), (End::Fault(42), 38));
}

fn result_of(opcode: u8, a: i64, b: i64) -> Value {
    let mut program = Assembly::default();
    program.block(Annotation::None, &[op(opcode, 2, 0, Reg(1)), halt()]);
    let input = JobInput::new(program.image(), 1, 0)
        .with_register(0, a)
        .with_register(1, b);
    outcome(&input).registers[2]
}

#[test]
fn arithmetic() {
    assert_eq!(result_of(DIVIDE, -7, 2), Value::Int(-3));
    assert_eq!(result_of(REMAINDER, -7, 2), Value::Int(-1));
    assert_eq!(result_of(DIVIDE, i64::MIN, -1), Value::Int(i64::MIN));
    assert_eq!(result_of(REMAINDER, i64::MIN, -1), Value::Int(0));
    assert_eq!(result_of(LESS, 1, 2), Value::Int(0));
    assert_eq!(result_of(LESS, 2, 2), Value::Int(1));
    assert_eq!(result_of(ADD, i64::MAX, 1), Value::Int(i64::MIN));
}

#[test]
fn image_limits() {
    let refusal = |image: Vec<u8>| report(&JobInput::new(image, 1, 0).bytes());
    assert_eq!(refusal(vec![0; 7]), "refused 1\n");
    assert_eq!(refusal(vec![0; 8]), "refused 2\n");
    assert_eq!(refusal(even_blocks(129, 129)), "refused 4\n");
    assert_eq!(refusal(even_blocks(1, 1025)), "refused 4\n");
    // These only jump.
    let spent = "end spent\nwork 1000000\n";
    assert_eq!(refusal(even_blocks(128, 128)), spent);
    assert_eq!(refusal(even_blocks(1, 1024)), spent);
}

#[test]
fn interval_and_word_limits() {
    let with_interval = |interval| JobInput { interval, ..f(2) };
    for interval in [1, 2, 7] {
        assert_eq!(report(&with_interval(interval).bytes()), "refused 12\n");
    }
    for interval in [0, 8, 65_535] {
        assert_eq!(
            report(&with_interval(interval).bytes()),
            report(&f(2).bytes())
        );
    }
    let with_words = |count| JobInput {
        words: vec![1; count],
        ..f(2)
    };
    assert_eq!(report(&with_words(4096).bytes()), report(&f(2).bytes()));
    assert_eq!(report(&with_words(4097).bytes()), "refused 14\n");
}
