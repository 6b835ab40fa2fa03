//! The jobs that are run.

use checks::assemble::{
    fork, halt, if_jump, join, jralloc, jump, mov, op, pop, push, word, Annotation, Assembly,
    JobInput, Operand,
};
use checks::hand::{f, figure_2};
use checks::layout::pair;
use model::opcode::{ADD, MULTIPLY, SUBTRACT};
use Operand::{Int, Lab, Reg};

/// The rounds that are left, and, of the jobs that fork, the join record.
const ROUNDS: u8 = 0;
const RECORD: u8 = 1;

/// One task that counts r0 down: five instructions a round.
pub fn serial(picks: u64) -> Vec<u8> {
    let mut serial = Assembly::default();
    serial.block(
        Annotation::None,
        &[
            if_jump(0, Lab(1)),
            op(SUBTRACT, 0, 0, Int(1)),
            op(MULTIPLY, 1, 1, Int(3)),
            op(ADD, 1, 1, Reg(0)),
            jump(Lab(0)),
        ],
    );
    serial.block(Annotation::None, &[halt()]);
    JobInput::new(serial.image(), 1, 0)
        .with_register(0, (picks / 5) as i64)
        .bytes()
}

/// One task whose loop calls a subroutine from two places: the label to come back to is pushed, and
/// the subroutine pops it after three instructions of work. Seventeen instructions a round.
pub fn calls(picks: u64) -> Vec<u8> {
    const LOOP: u8 = 0;
    const SECOND: u8 = 1;
    const AGAIN: u8 = 2;
    const SUBROUTINE: u8 = 3;
    const OVER: u8 = 4;
    const SUM: u8 = 2;
    const BACK: u8 = 3;
    const PICKS_A_ROUND: u64 = 17;

    let mut calls = Assembly::default();
    let first = [
        if_jump(ROUNDS, Lab(OVER)),
        op(SUBTRACT, ROUNDS, ROUNDS, Int(1)),
        push(Lab(SECOND)),
        jump(Lab(SUBROUTINE)),
    ];
    assert_eq!(calls.block(Annotation::None, &first), LOOP);
    let second = [push(Lab(AGAIN)), jump(Lab(SUBROUTINE))];
    assert_eq!(calls.block(Annotation::None, &second), SECOND);
    assert_eq!(calls.block(Annotation::None, &[jump(Lab(LOOP))]), AGAIN);
    let subroutine = [
        op(MULTIPLY, SUM, SUM, Int(3)),
        op(ADD, SUM, SUM, Reg(ROUNDS)),
        op(SUBTRACT, SUM, SUM, Int(7)),
        pop(BACK),
        jump(Reg(BACK)),
    ];
    assert_eq!(calls.block(Annotation::None, &subroutine), SUBROUTINE);
    assert_eq!(calls.block(Annotation::None, &[halt()]), OVER);
    JobInput::new(calls.image(), 1, 0)
        .with_register(ROUNDS.into(), (picks / PICKS_A_ROUND) as i64)
        .bytes()
}

/// Figure 2: four instructions a round, and promotions.
pub fn figure2(picks: u64, places: u8) -> Vec<u8> {
    figure_2((picks / 4) as i64, places, 64).bytes()
}

/// Every task forks at once, as often as 64 places allow, and then only joins: 63 forks and joins a
/// round. There is a block for each depth, from which parent and child both go on to the next.
pub fn forks(picks: u64) -> Vec<u8> {
    const DEEPEST: u8 = 6;
    const LEAF: u8 = 1 + DEEPEST;
    const OVER: u8 = LEAF + 1;
    /// Two for each fork, a join for each leaf and each combining, and four.
    const PICKS_A_ROUND: u64 = 63 * 2 + 64 + 63 + 4;

    let mut forks = Assembly::default();
    let round = Annotation::JoinTarget {
        policy: 1,
        combining: LEAF,
        pairs: vec![pair(2, 3)],
    };
    let code = [
        op(SUBTRACT, ROUNDS, ROUNDS, Int(1)),
        if_jump(ROUNDS, Lab(OVER)),
        jralloc(RECORD, Lab(0)),
        jump(Lab(1)),
    ];
    forks.block(round, &code);
    for depth in 0..DEEPEST {
        let next = Lab(depth + 2);
        forks.block(Annotation::None, &[fork(RECORD, next), jump(next)]);
    }
    forks.block(Annotation::None, &[join(Reg(RECORD))]);
    forks.block(Annotation::None, &[halt()]);
    JobInput::new(forks.image(), 64, 0)
        .with_register(ROUNDS.into(), (picks / PICKS_A_ROUND + 2) as i64)
        .bytes()
}

/// One uneven fork at 64 places: the parent joins at once and waits, the child loops. After each pick
/// the run passes over the waiting task's 32 places.
pub fn waits(picks: u64) -> Vec<u8> {
    const LOOP: u8 = 1;
    const JOIN: u8 = 2;
    const DONE: u8 = 3;
    let mut waits = Assembly::default();
    waits.block(
        Annotation::None,
        &[
            jralloc(RECORD, Lab(DONE)),
            fork(RECORD, Lab(LOOP)),
            join(Reg(RECORD)),
        ],
    );
    count_down_and_join(&mut waits, LOOP, JOIN, DONE);
    JobInput::new(waits.image(), 64, 0)
        .with_register(ROUNDS.into(), (picks / COUNT_DOWN_PICKS) as i64)
        .bytes()
}

/// Forks until 64 tasks have one place each. The one in slot 0, which was always the parent, loops;
/// the other 63 join at once and wait.
pub fn rest(picks: u64) -> Vec<u8> {
    const DEEPEST: u8 = 6;
    const CHILD: u8 = 1;
    const LOOP: u8 = 2 * DEEPEST;
    const JOIN: u8 = LOOP + 1;
    const DONE: u8 = LOOP + 2;
    let mut rest = Assembly::default();
    for depth in 0..DEEPEST {
        // Two blocks for each depth: from both it goes on to the next, and then to the loop.
        let (this, next) = (2 * depth, Lab(2 * depth + 2));
        let mut code = vec![fork(RECORD, Lab(this + CHILD)), jump(next)];
        if depth == 0 {
            code.insert(0, jralloc(RECORD, Lab(DONE)));
        }
        rest.block(Annotation::None, &code);
        rest.block(Annotation::None, &[mov(ROUNDS, Int(0)), jump(next)]);
    }
    count_down_and_join(&mut rest, LOOP, JOIN, DONE);
    JobInput::new(rest.image(), 64, 0)
        .with_register(ROUNDS.into(), (picks / COUNT_DOWN_PICKS) as i64)
        .bytes()
}

/// Forks until four tasks have one place each; all of them loop, for more rounds than there are picks.
pub fn four(picks: u64) -> Vec<u8> {
    const SECOND: u8 = 1;
    const LOOP: u8 = 2;
    const JOIN: u8 = 3;
    const DONE: u8 = 4;
    let mut four = Assembly::default();
    four.block(
        Annotation::None,
        &[
            jralloc(RECORD, Lab(DONE)),
            fork(RECORD, Lab(SECOND)),
            jump(Lab(SECOND)),
        ],
    );
    four.block(
        Annotation::None,
        &[fork(RECORD, Lab(LOOP)), jump(Lab(LOOP))],
    );
    count_down_and_join(&mut four, LOOP, JOIN, DONE);
    JobInput::new(four.image(), 4, 0)
        .with_register(ROUNDS.into(), picks as i64)
        .bytes()
}

/// An order for `four`: the four slots in turn. Five picks at its head are refused, until the last of
/// the four runs; all others are carried out.
pub fn four_in_turn(picks: u64) -> Vec<u8> {
    (0..4).cycle().take(picks as usize).collect()
}

/// Of a round of the loop.
const COUNT_DOWN_PICKS: u64 = 3;

/// The loop, the join that ends a side and also combines two, and the halt after the last join.
fn count_down_and_join(program: &mut Assembly, looping: u8, joining: u8, done: u8) {
    let round = [
        if_jump(ROUNDS, Lab(joining)),
        op(SUBTRACT, ROUNDS, ROUNDS, Int(1)),
        jump(Lab(looping)),
    ];
    let target = Annotation::JoinTarget {
        policy: 1,
        combining: joining,
        pairs: Vec::new(),
    };
    assert_eq!(program.block(Annotation::None, &round), looping);
    assert_eq!(
        program.block(Annotation::None, &[join(Reg(RECORD))]),
        joining
    );
    assert_eq!(program.block(target, &[halt()]), done);
}

/// Program F with r0 4 and two places: nine picks.
pub fn small() -> Vec<u8> {
    f(2).bytes()
}

/// 32 blocks of 8 instructions, one after the other, and 256 words: most of a call's time is for
/// reading and printing.
pub fn middling() -> Vec<u8> {
    const BLOCKS: u8 = 32;
    let mut middling = Assembly::default();
    for block in 0..BLOCKS {
        let mut code = vec![word(block % 16, Int(i64::from(block) * 8))];
        for sum in 0..6 {
            code.push(op(ADD, (block + sum) % 16, sum, Int(i64::from(sum) << 20)));
        }
        code.push(if block + 1 == BLOCKS {
            halt()
        } else {
            jump(Lab(block + 1))
        });
        middling.block(Annotation::None, &code);
    }
    let mut input = JobInput::new(middling.image(), 8, 64);
    input.words = (0..256).map(|word| word * word - 1000).collect();
    input.bytes()
}
