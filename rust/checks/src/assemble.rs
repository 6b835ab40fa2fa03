//! Programs put together block by block, without the model's writer.

use crate::layout::{
    image_of, instruction, join_target, plain, promotion_ready, BlockRecord, InstructionRecord,
    ABSENT, INTEGER, LABEL, REGISTER,
};
use model::{opcode, VERSION_1, VERSION_2};

/// An operand v.
#[derive(Clone, Copy, Debug, PartialEq, Eq)]
pub enum Operand {
    Reg(u8),
    Lab(u8),
    Int(i64),
}

fn with_operand(opcode: u8, r: u8, s: u8, v: Operand) -> InstructionRecord {
    match v {
        Operand::Reg(number) => instruction(opcode, r, s, REGISTER, number.into()),
        Operand::Lab(label) => instruction(opcode, r, s, LABEL, label.into()),
        Operand::Int(integer) => instruction(opcode, r, s, INTEGER, integer as u64),
    }
}

pub fn mov(r: u8, v: Operand) -> InstructionRecord {
    with_operand(opcode::MOVE, r, 0, v)
}

/// `r := s op v` of opcodes 2 to 8.
pub fn op(opcode: u8, r: u8, s: u8, v: Operand) -> InstructionRecord {
    with_operand(opcode, r, s, v)
}

pub fn word(r: u8, v: Operand) -> InstructionRecord {
    with_operand(opcode::WORD, r, 0, v)
}

pub fn if_jump(s: u8, v: Operand) -> InstructionRecord {
    with_operand(opcode::IF_JUMP, 0, s, v)
}

pub fn jralloc(r: u8, v: Operand) -> InstructionRecord {
    with_operand(opcode::JRALLOC, r, 0, v)
}

pub fn fork(s: u8, v: Operand) -> InstructionRecord {
    with_operand(opcode::FORK, 0, s, v)
}

pub fn jump(v: Operand) -> InstructionRecord {
    with_operand(opcode::JUMP, 0, 0, v)
}

pub fn join(v: Operand) -> InstructionRecord {
    with_operand(opcode::JOIN, 0, 0, v)
}

pub fn halt() -> InstructionRecord {
    instruction(opcode::HALT, 0, 0, ABSENT, 0)
}

pub fn push(v: Operand) -> InstructionRecord {
    with_operand(opcode::PUSH, 0, 0, v)
}

pub fn pop(r: u8) -> InstructionRecord {
    instruction(opcode::POP, r, 0, ABSENT, 0)
}

#[derive(Clone, Debug)]
pub enum Annotation {
    None,
    PromotionReady {
        handler: u8,
    },
    JoinTarget {
        policy: u8,
        combining: u8,
        pairs: Vec<u8>,
    },
}

impl Annotation {
    fn record(&self, first: u16) -> BlockRecord {
        match self {
            Annotation::None => plain(first),
            Annotation::PromotionReady { handler } => promotion_ready(first, *handler),
            Annotation::JoinTarget {
                policy,
                combining,
                pairs,
            } => join_target(first, *policy, *combining, pairs),
        }
    }

    /// Whether version 1 has room for it.
    fn is_short(&self) -> bool {
        match self {
            Annotation::JoinTarget { pairs, .. } => pairs.len() <= model::most_pairs(VERSION_1),
            _ => true,
        }
    }
}

/// Blocks in the order of their labels.
#[derive(Clone, Debug, Default)]
pub struct Assembly {
    blocks: Vec<(Annotation, Vec<InstructionRecord>)>,
}

impl Assembly {
    /// A label for a block that is filled later.
    pub fn reserve(&mut self) -> u8 {
        self.blocks.push((Annotation::None, Vec::new()));
        (self.blocks.len() - 1) as u8
    }

    pub fn annotate(&mut self, label: u8, annotation: Annotation) {
        self.blocks[usize::from(label)].0 = annotation;
    }

    pub fn fill(&mut self, label: u8, code: Vec<InstructionRecord>) {
        self.blocks[usize::from(label)].1 = code;
    }

    /// Reserves and fills in one.
    pub fn block(&mut self, annotation: Annotation, code: &[InstructionRecord]) -> u8 {
        self.blocks.push((annotation, code.to_vec()));
        (self.blocks.len() - 1) as u8
    }

    pub fn block_count(&self) -> usize {
        self.blocks.len()
    }

    /// Of the first version that has all that the blocks need.
    pub fn image(&self) -> Vec<u8> {
        let last_opcode = model::last_opcode(VERSION_1);
        let is_first = |(annotation, code): &(Annotation, Vec<InstructionRecord>)| {
            annotation.is_short() && code.iter().all(|record| record[0] <= last_opcode)
        };
        let is_first = self.blocks.iter().all(is_first);
        self.image_of(if is_first { VERSION_1 } else { VERSION_2 })
    }

    pub fn image_of(&self, version: u16) -> Vec<u8> {
        let mut records = Vec::new();
        let mut instructions = Vec::new();
        for (annotation, code) in &self.blocks {
            records.push(annotation.record(instructions.len() as u16));
            instructions.extend(code);
        }
        image_of(version, &records, &instructions)
    }
}

/// A job for the run program, field by field.
#[derive(Clone, Debug, PartialEq, Eq)]
pub struct JobInput {
    pub image: Vec<u8>,
    pub places: u8,
    pub interval: u16,
    pub registers: [i64; 16],
    pub words: Vec<i64>,
}

impl JobInput {
    /// With registers 0 and no words.
    pub fn new(image: Vec<u8>, places: u8, interval: u16) -> Self {
        JobInput {
            image,
            places,
            interval,
            registers: [0; 16],
            words: Vec::new(),
        }
    }

    pub fn with_register(mut self, number: usize, integer: i64) -> Self {
        self.registers[number] = integer;
        self
    }

    pub fn bytes(&self) -> Vec<u8> {
        let mut bytes = (self.image.len() as u16).to_le_bytes().to_vec();
        bytes.extend(&self.image);
        bytes.push(self.places);
        bytes.extend(self.interval.to_le_bytes());
        bytes.extend(self.register_bytes());
        bytes.extend((self.words.len() as u16).to_le_bytes());
        bytes.extend(self.word_bytes());
        bytes
    }

    /// The start registers as a start is lent them.
    pub fn register_bytes(&self) -> Vec<u8> {
        let registers = self.registers.iter();
        registers
            .flat_map(|register| register.to_le_bytes())
            .collect()
    }

    /// The call record as start, pick and run are lent it.
    pub fn word_bytes(&self) -> Vec<u8> {
        self.words
            .iter()
            .flat_map(|word| word.to_le_bytes())
            .collect()
    }
}
