//! The product loop of document 002's Figure 2, in its parallel form.

use crate::assemble::{
    fork, halt, if_jump, join, jralloc, jump, mov, op, Annotation, Assembly, Operand,
};
use crate::layout::pair;
use model::opcode::{ADD, DIVIDE, LESS, REMAINDER, SUBTRACT};
use model::VERSION_1;
use Operand::{Int, Lab, Reg};

pub const A: u8 = 0;
pub const B: u8 = 1;
pub const C: u8 = 2;
const R: u8 = 3;
const R2: u8 = 4;
const T: u8 = 5;
const M: u8 = 6;
const N: u8 = 7;
const TR: u8 = 8;
const JR: u8 = 9;

/// The image of version 1.
pub fn product() -> Vec<u8> {
    product_of(VERSION_1)
}

/// The image, with the blocks in the figure's order.
pub fn product_of(version: u16) -> Vec<u8> {
    const EXIT: u8 = 1;
    const LOOP: u8 = 2;
    const LOOP_TRY_PROMOTE: u8 = 3;
    const LOOP_PAR_TRY_PROMOTE: u8 = 4;
    const LOOP_PROMOTE: u8 = 5;
    const LOOP_PAR: u8 = 6;
    const COMB: u8 = 7;
    const EXIT_PAR: u8 = 8;

    let ready = |handler| Annotation::PromotionReady { handler };
    let exit = Annotation::JoinTarget {
        policy: 1,
        combining: COMB,
        pairs: vec![pair(R, R2)],
    };
    let mut figure = Assembly::default();
    figure.block(Annotation::None, &[mov(R, Int(0)), jump(Lab(LOOP))]);
    figure.block(exit, &[mov(C, Reg(R)), halt()]);
    figure.block(
        ready(LOOP_TRY_PROMOTE),
        &[
            if_jump(A, Lab(EXIT)),
            op(ADD, R, R, Reg(B)),
            op(SUBTRACT, A, A, Int(1)),
            jump(Lab(LOOP)),
        ],
    );
    figure.block(
        Annotation::None,
        &[
            op(LESS, T, A, Int(2)),
            if_jump(T, Lab(LOOP)),
            jralloc(JR, Lab(EXIT)),
            jump(Lab(LOOP_PROMOTE)),
        ],
    );
    figure.block(
        Annotation::None,
        &[
            op(LESS, T, A, Int(2)),
            if_jump(T, Lab(LOOP_PAR)),
            jump(Lab(LOOP_PROMOTE)),
        ],
    );
    figure.block(
        Annotation::None,
        &[
            op(DIVIDE, M, A, Int(2)),
            op(REMAINDER, N, A, Int(2)),
            mov(A, Reg(M)),
            mov(TR, Reg(R)),
            mov(R, Int(0)),
            fork(JR, Lab(LOOP_PAR)),
            op(ADD, A, M, Reg(N)),
            mov(R, Reg(TR)),
            jump(Lab(LOOP_PAR)),
        ],
    );
    figure.block(
        ready(LOOP_PAR_TRY_PROMOTE),
        &[
            if_jump(A, Lab(EXIT_PAR)),
            op(ADD, R, R, Reg(B)),
            op(SUBTRACT, A, A, Int(1)),
            jump(Lab(LOOP_PAR)),
        ],
    );
    figure.block(Annotation::None, &[op(ADD, R, R, Reg(R2)), join(Reg(JR))]);
    figure.block(Annotation::None, &[join(Reg(JR))]);
    debug_assert_eq!(figure.block_count(), usize::from(EXIT_PAR) + 1);
    figure.image_of(version)
}
