//! Document 02's request 1 on the engine and the model: a block entered with the counter one below
//! the interval, at it and one above it, by jump, by taken if-jump and by join.

use checks::assemble::{
    halt, if_jump, join, jralloc, jump, mov, op, Annotation, Assembly, JobInput, Operand,
};
use checks::numbers::number_at;
use checks::replay::state_after;
use model::opcode::SUBTRACT;
use model::Job;
use Operand::{Int, Lab, Reg};

/// Blocks.
const COUNT: u8 = 0;
const ENTER: u8 = 1;
const READY: u8 = 2;
const HANDLER: u8 = 3;
const TARGET: u8 = 4;

/// Registers.
const ROUNDS: u8 = 0;
const RECORD: u8 = 1;
const ZERO: u8 = 2;

/// Numbers of a state.
const PROGRAM_COUNTER: usize = 6;
const COUNTER: usize = 7;

#[derive(Clone, Copy, Debug)]
enum Way {
    Jump,
    IfJump,
    Join,
}

/// A job that enters `READY`, or `TARGET` by join, with its instruction number `count`; `TARGET`
/// jumps on to `READY`.
fn entering(way: Way, count: u32, places: u8, interval: u16) -> JobInput {
    // Three instructions a round, one less in the last; the record, the moves and the entry.
    let (rounds, moves) = ((count - 1) / 3, (count - 1) % 3);
    let mut code = vec![jralloc(RECORD, Lab(TARGET))];
    code.resize(1 + moves as usize, mov(ZERO, Int(0)));
    code.extend(match way {
        Way::Jump => vec![jump(Lab(READY))],
        Way::IfJump => vec![if_jump(ZERO, Lab(READY)), halt()],
        Way::Join => vec![join(Reg(RECORD))],
    });
    let target = Annotation::JoinTarget {
        policy: 0,
        combining: ENTER,
        pairs: Vec::new(),
    };
    let mut program = Assembly::default();
    program.block(
        Annotation::None,
        &[
            op(SUBTRACT, ROUNDS, ROUNDS, Int(1)),
            if_jump(ROUNDS, Lab(ENTER)),
            jump(Lab(COUNT)),
        ],
    );
    program.block(Annotation::None, &code);
    program.block(Annotation::PromotionReady { handler: HANDLER }, &[halt()]);
    program.block(Annotation::None, &[halt()]);
    program.block(target, &[jump(Lab(READY))]);
    JobInput::new(program.image(), places, interval).with_register(ROUNDS.into(), rounds.into())
}

/// The block at whose start the task stands after this many picks, and its counter.
fn after(input: &JobInput, picks: u32) -> (u8, u32) {
    let state = state_after(input, &vec![0; picks as usize]);
    let pc = number_at(&state, PROGRAM_COUNTER);
    let blocks = Job::parse(&input.bytes()).unwrap().program.blocks;
    let block = blocks.iter().position(|block| u64::from(block.first) == pc);
    let block = block.expect("the task stands at a block's start");
    (block as u8, number_at(&state, COUNTER) as u32)
}

fn entered(way: Way, count: u32, places: u8, interval: u16) -> (u8, u32) {
    after(&entering(way, count, places, interval), count)
}

/// Where entering `READY` with this counter leads with two places and a beat, and the counter then.
fn on_interval(counter: u32, beat: u32) -> (u8, u32) {
    if counter >= beat {
        (HANDLER, 0)
    } else {
        (READY, counter)
    }
}

#[test]
fn jump_and_if_jump_promote_from_the_interval_on() {
    for way in [Way::Jump, Way::IfJump] {
        for interval in [8, 9, 1_000, 65_535] {
            let beat = interval.into();
            assert_eq!(entered(way, beat - 1, 2, interval), (READY, beat - 1));
            assert_eq!(entered(way, beat, 2, interval), (HANDLER, 0));
            assert_eq!(entered(way, beat + 1, 2, interval), (HANDLER, 0));
        }
    }
}

#[test]
fn no_promotion_with_one_place_or_without_a_beat() {
    for way in [Way::Jump, Way::IfJump] {
        for count in [7, 8, 9, 100] {
            assert_eq!(entered(way, count, 1, 8), (READY, count));
            assert_eq!(entered(way, count, 64, 0), (READY, count));
            // The same entry with both.
            assert_eq!(entered(way, count, 64, 8), on_interval(count, 8));
        }
    }
}

/// A join enters join targets alone, which are not promotion-ready; the counter goes on.
#[test]
fn join_never_promotes_and_the_next_jump_does() {
    for interval in [8, 9, 1_000] {
        let beat = u32::from(interval);
        for count in [beat - 2, beat - 1, beat, beat + 1] {
            let input = entering(Way::Join, count, 2, interval);
            assert_eq!(after(&input, count), (TARGET, count));
            assert_eq!(after(&input, count + 1), on_interval(count + 1, beat));
        }
    }
}
