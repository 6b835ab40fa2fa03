//! Branches and loops among the statements.

use super::{Nested, Scene};
use crate::assemble::{fork, if_jump, join, jralloc, jump, mov, op, Annotation, Operand};
use crate::jobs::integer;
use crate::jobs::mishap::SCRATCH;
use crate::layout::{pair, InstructionRecord};
use model::opcode::{ADD, DIVIDE, LESS, REMAINDER, SUBTRACT};
use Operand::{Int, Lab, Reg};

impl Nested<'_> {
    /// A part that is skipped or not.
    pub(super) fn branch(
        &mut self,
        label: u8,
        mut code: Vec<InstructionRecord>,
        scene: Scene,
        left: usize,
    ) {
        let after = self.assembly.reserve();
        let condition = self.data();
        if self.random.one_in(2) {
            code.push(op(LESS, condition, condition, Int(integer(self.random))));
        }
        code.push(if_jump(condition, Lab(after)));
        for _ in 0..self.random.between(0, 3) {
            code.push(self.simple());
        }
        if self.random.one_in(2) {
            code.push(jump(Lab(after)));
        } else {
            code.push(mov(SCRATCH, Lab(after)));
            code.push(jump(Reg(SCRATCH)));
        }
        self.assembly.fill(label, code);
        self.fill(after, Vec::new(), scene, left);
    }

    /// A counted loop that comes back by jump or by if-jump, mostly promotion-ready, whose handler
    /// forks nothing.
    pub(super) fn loop_alone(
        &mut self,
        label: u8,
        mut code: Vec<InstructionRecord>,
        scene: Scene,
        left: usize,
    ) {
        const COUNT: u8 = 7;
        const TEST: u8 = 6;
        let again = self.assembly.reserve();
        let after = self.assembly.reserve();
        code.push(mov(COUNT, Int(self.random.between(1, 12) as i64)));
        code.push(jump(Lab(again)));
        self.assembly.fill(label, code);

        if !self.random.one_in(4) {
            let mut code = vec![self.simple()];
            // It may undo the count, but only once in so many instructions.
            code.push(jump(Lab(again)));
            let handler = self.assembly.block(Annotation::None, &code);
            self.assembly
                .annotate(again, Annotation::PromotionReady { handler });
        }
        let mut body = vec![op(SUBTRACT, COUNT, COUNT, Int(1))];
        if self.random.one_in(2) {
            body.push(if_jump(COUNT, Lab(after)));
            body.push(op(ADD, 0, 0, Reg(1)));
            body.push(jump(Lab(again)));
        } else {
            body.push(mov(TEST, Int(0)));
            body.push(op(LESS, TEST, TEST, Reg(COUNT)));
            body.push(if_jump(TEST, Lab(again)));
            body.push(jump(Lab(after)));
        }
        self.assembly.fill(again, body);
        self.fill(after, Vec::new(), scene, left);
    }

    /// The product loop's form: a loop that shares its rest with a child at each promotion.
    pub(super) fn loop_with_promotion(
        &mut self,
        label: u8,
        mut code: Vec<InstructionRecord>,
        scene: Scene,
        left: usize,
    ) {
        const COUNT: u8 = 1;
        const SUM: u8 = 2;
        const CHILDS_SUM: u8 = 3;
        const TEST: u8 = 4;
        const HALF: u8 = 5;
        const KEPT: u8 = 7;
        let record = scene.free;

        let serial = self.assembly.reserve();
        let parallel = self.assembly.reserve();
        let promote = self.assembly.reserve();
        let after = self.assembly.reserve();
        code.push(mov(COUNT, Int(self.random.between(0, 40) as i64)));
        code.push(mov(SUM, Int(0)));
        code.push(jump(Lab(serial)));
        self.assembly.fill(label, code);

        let join_again = self.assembly.block(Annotation::None, &[join(Reg(record))]);
        let first_promotion = self.assembly.block(
            Annotation::None,
            &[
                op(LESS, TEST, COUNT, Int(2)),
                if_jump(TEST, Lab(serial)),
                jralloc(record, Lab(after)),
                jump(Lab(promote)),
            ],
        );
        let next_promotion = self.assembly.block(
            Annotation::None,
            &[
                op(LESS, TEST, COUNT, Int(2)),
                if_jump(TEST, Lab(parallel)),
                jump(Lab(promote)),
            ],
        );
        let share = [
            op(DIVIDE, HALF, COUNT, Int(2)),
            op(SUBTRACT, TEST, COUNT, Reg(HALF)),
            mov(COUNT, Reg(HALF)),
            mov(KEPT, Reg(SUM)),
            mov(SUM, Int(0)),
            fork(record, Lab(parallel)),
            mov(COUNT, Reg(TEST)),
            mov(SUM, Reg(KEPT)),
            jump(Lab(parallel)),
        ];
        self.assembly.fill(promote, share.to_vec());

        let mut body = Vec::new();
        for _ in 0..self.random.below(3) {
            body.push(op(ADD, 0, 0, Reg(COUNT)));
        }
        if self.mishaps > 0 && self.random.one_in(8) {
            // A fault for one number of rounds left, in whichever task comes to it.
            let fatal = self.random.between(1, 10) as i64;
            body.push(op(SUBTRACT, TEST, COUNT, Int(fatal)));
            body.push(op(REMAINDER, TEST, COUNT, Reg(TEST)));
        }
        body.push(op(ADD, SUM, SUM, Reg(COUNT)));
        body.push(op(SUBTRACT, COUNT, COUNT, Int(1)));
        for (entry, exit, handler) in [
            (serial, after, first_promotion),
            (parallel, join_again, next_promotion),
        ] {
            let mut code = vec![if_jump(COUNT, Lab(exit))];
            code.extend(&body);
            code.push(jump(Lab(entry)));
            self.assembly.fill(entry, code);
            self.assembly
                .annotate(entry, Annotation::PromotionReady { handler });
        }
        let combining = self.assembly.block(
            Annotation::None,
            &[op(ADD, SUM, SUM, Reg(CHILDS_SUM)), join(Reg(record))],
        );
        self.assembly.annotate(
            after,
            Annotation::JoinTarget {
                policy: 1,
                combining,
                pairs: vec![pair(SUM, CHILDS_SUM)],
            },
        );
        self.fill(after, Vec::new(), scene, left);
    }

    /// A loop without an end.
    pub(super) fn endless(&mut self, label: u8, mut code: Vec<InstructionRecord>) {
        let again = self.assembly.reserve();
        code.push(jump(Lab(again)));
        self.assembly.fill(label, code);
        let code = [self.simple(), jump(Lab(again))];
        self.assembly.fill(again, code.to_vec());
        if self.random.one_in(2) {
            self.assembly
                .annotate(again, Annotation::PromotionReady { handler: again });
        }
    }
}
