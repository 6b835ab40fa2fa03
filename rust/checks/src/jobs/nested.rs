//! Programs whose forks, joins and loops are nested in the text. A record lives in a register of
//! its own level, so that those of the levels around it stay at hand.

mod held;
mod loops;

use super::integer;
use super::mishap::{self, Place, Stackers, SCRATCH};
use crate::assemble::{
    fork, halt, join, jralloc, mov, op, pop, push, word, Annotation, Assembly, Operand,
};
use crate::layout::{pair, InstructionRecord};
use crate::random::Random;
use held::Held;
use model::opcode::{DIVIDE, EQUAL, LESS, REMAINDER};
use model::MAX_BLOCKS;
use model::{fault, most_pairs, VERSION_2};
use Operand::{Int, Lab, Reg};

/// r0 to r7 hold integers, r8 to r14 records.
const DATA: u8 = 8;
const FIRST_RECORD: u8 = 8;
/// The blocks of the largest statement.
const SPARE_BLOCKS: usize = 12;

struct Nested<'a> {
    random: &'a mut Random,
    version: u16,
    assembly: Assembly,
    word_count: usize,
    /// One statement in so many goes wrong; 0: none does.
    mishaps: usize,
    /// One statement in so many goes on for ever; 0: none does.
    endless: usize,
    /// Forks are nested no deeper in the text.
    most_depth: usize,
    target: u8,
    joiner: u8,
    stackers: Option<Stackers>,
}

/// What the code being written is a part of.
#[derive(Clone, Copy)]
struct Scene {
    /// Number of open forks, if no promotion opened more.
    depth: usize,
    /// The register with the record that the code ends by joining. None: it ends by halt.
    record: Option<u8>,
    /// The register for the next record.
    free: u8,
    /// What the stack holds here.
    held: Held,
    /// The height that the code ends with: of a parent's side that which it began with, since the
    /// code after the join counts on it. None: any, for the stack is dropped or the job at its end.
    floor: Option<usize>,
}

impl Scene {
    /// After a fork under this record, which is new or the one that the code ends with.
    fn parents_side(self, record: u8, is_new: bool) -> Self {
        Scene {
            depth: self.depth + 1,
            record: Some(record),
            free: self.free.max(record + 1),
            held: self.held,
            floor: if is_new {
                Some(self.held.height)
            } else {
                self.floor
            },
        }
    }

    /// Of the child, where this is the parent's side.
    fn childs(self) -> Self {
        Scene {
            held: Held::NOTHING,
            floor: None,
            ..self
        }
    }
}

pub fn program(random: &mut Random, version: u16, halvings: usize, word_count: usize) -> Vec<u8> {
    let mishaps = random.pick(&[0, 0, 40, 12, 5]);
    let endless = random.pick(&[0, 0, 0, 0, 0, 0, 0, 60]);
    let most_depth = if mishaps == 0 {
        halvings
    } else {
        halvings + random.below(2)
    };
    let size = random.pick(&[3, 15, 40, 80, 120]);
    let mut assembly = Assembly::default();
    let entry = assembly.reserve();
    let joiner = assembly.block(Annotation::None, &[join(Reg(SCRATCH))]);
    let target = assembly.block(
        Annotation::JoinTarget {
            policy: 0,
            combining: joiner,
            pairs: vec![pair(0, 1)],
        },
        &[halt()],
    );
    let stackers = Stackers::of(random, version, &mut assembly);
    let mut nested = Nested {
        random,
        version,
        assembly,
        word_count,
        mishaps,
        endless,
        most_depth,
        target,
        joiner,
        stackers,
    };
    let scene = Scene {
        depth: 0,
        record: None,
        free: FIRST_RECORD,
        held: Held::NOTHING,
        floor: None,
    };
    nested.fill(entry, Vec::new(), scene, size);
    nested.assembly.image_of(version)
}

impl Nested<'_> {
    /// Fills a block that begins with `code`, and the blocks that it leads to.
    fn fill(&mut self, label: u8, mut code: Vec<InstructionRecord>, mut scene: Scene, size: usize) {
        let mut left = size;
        while left > 0 && self.assembly.block_count() + SPARE_BLOCKS <= MAX_BLOCKS {
            left -= 1;
            if self.mishaps > 0 && self.random.one_in(self.mishaps) {
                return self.mishap(label, code, scene);
            }
            if self.endless > 0 && self.random.one_in(self.endless) {
                return self.endless(label, code);
            }
            if self.version == VERSION_2 && self.random.one_in(4) {
                scene.held = self.push_or_pop(&mut code, scene);
                continue;
            }
            match self.random.below(16) {
                0..=4 if scene.depth < self.most_depth => {
                    let parts = self.parts(left);
                    scene = self.fork(&mut code, scene, parts);
                    left = parts[2];
                }
                5 => return self.branch(label, code, scene, left),
                6 => return self.loop_alone(label, code, scene, left),
                7 => return self.loop_with_promotion(label, code, scene, left),
                8 => return self.join_alone(label, code, scene, left),
                _ => code.push(self.simple()),
            }
        }
        for _ in scene.floor.unwrap_or(scene.held.height)..scene.held.height {
            code.push(pop(SCRATCH));
        }
        code.push(match scene.record {
            Some(record) => join(Reg(record)),
            None => halt(),
        });
        self.assembly.fill(label, code);
    }

    /// The size of a child's code, of that after the join, and of the parent's.
    fn parts(&mut self, whole: usize) -> [usize; 3] {
        let child = self.random.between(0, whole);
        let after = self.random.between(0, whole - child);
        [child, after, whole - child - after]
    }

    fn data(&mut self) -> u8 {
        self.random.below(DATA.into()) as u8
    }

    /// An instruction that does not fault on integers.
    fn simple(&mut self) -> InstructionRecord {
        let (r, s) = (self.data(), self.data());
        match self.random.below(12) {
            0 => mov(r, Reg(s)),
            1 => mov(r, Int(integer(self.random))),
            2 => mov(SCRATCH, Lab(self.random.below(3) as u8)),
            3 => mov(SCRATCH, Reg(self.random.below(16) as u8)),
            4 if self.word_count > 0 => {
                let index = self.random.below(self.word_count);
                word(r, Int(index as i64))
            }
            5 => {
                let divisor = integer(self.random);
                let divisor = if divisor == 0 { -1 } else { divisor };
                op(self.random.pick(&[DIVIDE, REMAINDER]), r, s, Int(divisor))
            }
            6 => op(
                self.random.pick(&[LESS, EQUAL]),
                r,
                s,
                Reg(self.random.below(8) as u8),
            ),
            7 => op(
                self.random.between(2, 4) as u8,
                r,
                s,
                Int(integer(self.random)),
            ),
            _ => {
                let v = Reg(self.data());
                op(self.random.between(2, 4) as u8, r, s, v)
            }
        }
    }

    /// A join target's annotation, with pairs that copy integers to r0 to r7 and anything to the
    /// scratch register.
    fn join_target(&mut self, combining: u8) -> Annotation {
        let mut pairs = Vec::new();
        let wanted = self.random.between(0, most_pairs(self.version));
        for target in 0..DATA {
            let room = usize::from(DATA - target) + pairs.len();
            if pairs.len() < wanted && (room <= wanted || self.random.one_in(3)) {
                pairs.push(pair(self.data(), target));
            }
        }
        if pairs.len() < wanted {
            pairs.push(pair(self.random.below(16) as u8, SCRATCH));
        }
        Annotation::JoinTarget {
            policy: self.random.below(2) as u8,
            combining,
            pairs,
        }
    }

    /// A block that combines and joins again.
    fn combining(&mut self, record: u8) -> u8 {
        let mut code = Vec::new();
        for _ in 0..self.random.between(0, 3) {
            code.push(self.simple());
        }
        if self.version == VERSION_2 && self.random.one_in(4) {
            // Over whatever the parent's side has left.
            code.extend([push(Reg(record)), pop(SCRATCH)]);
        }
        if self.mishaps > 0 && self.random.one_in(4 * self.mishaps) {
            code.push(op(DIVIDE, 0, 0, Int(0)));
        }
        code.push(join(Reg(record)));
        self.assembly.block(Annotation::None, &code)
    }

    /// A fork under the record that the code ends with, or under one of its own. The child's code
    /// and that after the join are written here; what is handed back is the parent's scene.
    fn fork(
        &mut self,
        code: &mut Vec<InstructionRecord>,
        scene: Scene,
        parts: [usize; 3],
    ) -> Scene {
        let [in_child, mut after, _] = parts;
        let record = match scene.record {
            Some(record) if self.random.one_in(2) => {
                after = 0;
                record
            }
            _ => scene.free,
        };
        let is_new = scene.record != Some(record);
        let side = scene.parents_side(record, is_new);
        if is_new {
            let continuation = self.assembly.reserve();
            let combining = self.combining(record);
            let annotation = self.join_target(combining);
            self.assembly.annotate(continuation, annotation);
            code.push(jralloc(record, Lab(continuation)));
            if self.random.one_in(2) {
                code.push(self.simple());
            }
            self.fill(continuation, Vec::new(), scene, after);
        }
        let child = self.assembly.reserve();
        code.push(fork(record, Lab(child)));
        self.fill(child, Vec::new(), side.childs(), in_child);
        side
    }

    /// A join by a record that nothing was forked under.
    fn join_alone(
        &mut self,
        label: u8,
        mut code: Vec<InstructionRecord>,
        scene: Scene,
        left: usize,
    ) {
        let after = self.assembly.reserve();
        let annotation = self.join_target(self.joiner);
        self.assembly.annotate(after, annotation);
        code.push(jralloc(SCRATCH, Lab(after)));
        code.push(join(Reg(SCRATCH)));
        self.assembly.fill(label, code);
        self.fill(after, Vec::new(), scene, left);
    }

    /// A fault of some number, or a join or fork by whatever a record's register holds.
    fn mishap(&mut self, label: u8, mut code: Vec<InstructionRecord>, scene: Scene) {
        let any_record = self.random.between(FIRST_RECORD.into(), SCRATCH.into()) as u8;
        let number = self.random.pick(fault::of(self.version));
        let place = Place {
            record: scene.record,
            plain: 0,
            target: self.target,
            joiner: self.joiner,
            stackers: self.stackers,
            word_count: self.word_count,
        };
        match self.random.below(8) {
            0 => code.push(join(Reg(any_record))),
            1 => code.push(fork(any_record, Lab(self.joiner))),
            _ => code.extend(mishap::code(self.random, number, place)),
        }
        end_block(&mut code, scene.record);
        self.assembly.fill(label, code);
    }
}

/// Adds a block's last instruction if there is none.
pub fn end_block(code: &mut Vec<InstructionRecord>, record: Option<u8>) {
    let ends = |last: &InstructionRecord| matches!(last[0], 13..=15);
    if !code.last().map_or(false, ends) {
        code.push(match record {
            Some(record) => join(Reg(record)),
            None => halt(),
        });
    }
}
