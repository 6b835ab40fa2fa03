//! Jobs of document 01's 'Tried by hand', and of document 02's request 4.

use crate::assemble::{
    fork, halt, if_jump, join, jralloc, jump, mov, op, pop, push, word, Annotation, Assembly,
    JobInput, Operand,
};
use crate::layout::{pair, program_f, InstructionRecord};
use crate::product::{product, A, B};
use model::opcode::{ADD, DIVIDE, SUBTRACT};
use model::VERSION_2;
use Operand::{Int, Lab, Reg};

/// Program F with r0 4.
pub fn f(places: u8) -> JobInput {
    JobInput::new(program_f(), places, 0).with_register(0, 4)
}

/// F at P 2 with other instructions for the parent's sum and the child's move.
pub fn f_with(parent: InstructionRecord, child: InstructionRecord) -> JobInput {
    let target = Annotation::JoinTarget {
        policy: 0,
        combining: 3,
        pairs: vec![pair(0, 2)],
    };
    let mut f = Assembly::default();
    f.block(
        Annotation::None,
        &[jralloc(1, Lab(2)), fork(1, Lab(1)), parent, join(Reg(1))],
    );
    f.block(Annotation::None, &[child, join(Reg(1))]);
    f.block(target, &[halt()]);
    f.block(Annotation::None, &[op(ADD, 0, 0, Reg(2)), join(Reg(1))]);
    JobInput::new(f.image(), 2, 0).with_register(0, 4)
}

/// Word 0 of an empty call record: fault 33.
pub fn outside() -> InstructionRecord {
    word(0, Int(0))
}

/// Fault 32.
pub fn by_zero() -> InstructionRecord {
    op(DIVIDE, 0, 0, Int(0))
}

/// A subroutine called from two places, by document 02's request 4: r0 is 10 in the end.
pub fn call_and_return() -> JobInput {
    const SECOND: u8 = 1;
    const SUBROUTINE: u8 = 2;
    const OVER: u8 = 3;
    let call = |back| [push(Lab(back)), jump(Lab(SUBROUTINE))];
    let mut calls = Assembly::default();
    calls.block(Annotation::None, &call(SECOND));
    calls.block(Annotation::None, &call(OVER));
    calls.block(
        Annotation::None,
        &[op(ADD, 0, 0, Int(5)), pop(1), jump(Reg(1))],
    );
    calls.block(Annotation::None, &[halt()]);
    JobInput::new(calls.image(), 1, 0)
}

/// F at P 2 with a stack: the task pushes 10 and forks, the parent pushes 20, and the joined task
/// pops r3 and r4. The child's side is given.
pub fn f_with_stack(child: &[InstructionRecord]) -> JobInput {
    let target = Annotation::JoinTarget {
        policy: 0,
        combining: 3,
        pairs: Vec::new(),
    };
    let mut f = Assembly::default();
    let parent = [
        jralloc(1, Lab(2)),
        push(Int(10)),
        fork(1, Lab(1)),
        push(Int(20)),
        join(Reg(1)),
    ];
    f.block(Annotation::None, &parent);
    let mut side = child.to_vec();
    side.push(join(Reg(1)));
    f.block(Annotation::None, &side);
    f.block(target, &[halt()]);
    f.block(Annotation::None, &[pop(3), pop(4), join(Reg(1))]);
    JobInput::new(f.image_of(VERSION_2), 2, 0)
}

/// So many pushes, and a halt.
pub fn pushes(count: usize) -> JobInput {
    let mut code = vec![push(Int(7)); count];
    code.push(halt());
    let mut pushes = Assembly::default();
    pushes.block(Annotation::None, &code);
    JobInput::new(pushes.image_of(VERSION_2), 1, 0)
}

/// The product loop of document 002's Figure 2 with b 5.
pub fn figure_2(a: i64, places: u8, interval: u16) -> JobInput {
    JobInput::new(product(), places, interval)
        .with_register(A.into(), a)
        .with_register(B.into(), 5)
}

/// A block that jumps to itself.
pub fn endless() -> JobInput {
    let mut endless = Assembly::default();
    endless.block(Annotation::None, &[jump(Lab(0))]);
    JobInput::new(endless.image(), 1, 0)
}

/// A fork at P 2; both sides go to a block that jumps to itself.
pub fn two_for_ever() -> JobInput {
    const LOOP: u8 = 1;
    const DONE: u8 = 2;
    let target = Annotation::JoinTarget {
        policy: 0,
        combining: LOOP,
        pairs: Vec::new(),
    };
    let mut two = Assembly::default();
    let both = [jralloc(1, Lab(DONE)), fork(1, Lab(LOOP)), jump(Lab(LOOP))];
    two.block(Annotation::None, &both);
    two.block(Annotation::None, &[jump(Lab(LOOP))]);
    two.block(target, &[halt()]);
    JobInput::new(two.image(), 2, 0)
}

/// A job's bytes that are refused with each of the numbers that a job can get; all but the one
/// thing is as in F.
pub fn refused() -> Vec<(u8, Vec<u8>)> {
    let with_image = |change: fn(&mut Vec<u8>)| {
        let mut input = f(2);
        change(&mut input.image);
        input.bytes()
    };
    let with = |change: fn(&mut JobInput)| {
        let mut input = f(2);
        change(&mut input);
        input.bytes()
    };
    let mut cut_short = f(2).bytes();
    cut_short.pop();
    vec![
        (1, with_image(|image| image.truncate(7))),
        (2, with_image(|image| image[2] = b'C')),
        (3, with_image(|image| image[3] = 3)),
        (4, with_image(|image| image[5] = 0)),
        (5, with_image(|image| image.truncate(155))),
        (6, with_image(|image| image[8] = 1)),
        (7, with_image(|image| image[30] = 3)),
        (8, with_image(|image| image[48] = 0)),
        (9, with_image(|image| image[18] = 3)),
        (10, cut_short),
        (11, with(|input| input.places = 3)),
        (12, with(|input| input.interval = 7)),
        (14, with(|input| input.words = vec![0; 4097])),
    ]
}

/// Bytes that pass question 10 and no more: the image is of zeros, so the answer is 2, and there
/// are too many words. With an image of 65,535 bytes, no longer ones pass.
pub fn long(image_len: usize) -> Vec<u8> {
    let mut input = JobInput::new(vec![0; image_len], 1, 0);
    input.words = vec![0; 65_535];
    input.bytes()
}

/// A job that ends by halt after exactly so many picks, 5 or more.
pub fn of_picks(picks: u64) -> JobInput {
    const ROUND: u64 = 3;
    // The last look at r0, and the halt.
    const END: u64 = 2;
    let mut count_down = Assembly::default();
    let round = [if_jump(0, Lab(1)), op(SUBTRACT, 0, 0, Int(1)), jump(Lab(0))];
    count_down.block(Annotation::None, &round);
    let rest = (picks - END) % ROUND;
    let mut end = vec![mov(1, Int(0)); rest as usize];
    end.push(halt());
    count_down.block(Annotation::None, &end);
    let rounds = (picks - END) / ROUND;
    JobInput::new(count_down.image(), 1, 0).with_register(0, rounds as i64)
}
