//! From the bytes of an image that the reader accepts to operations.

use crate::job::word;
use crate::needs::Needs;
use crate::op::{Block, Code, Op, OpCode, Operand, Register, Target};
use crate::rows::{row, Row};
use model::{block_bytes, fault, HEADER_BYTES, INSTRUCTION_BYTES, MAX_PAIRS, VERSION_1, VERSION_2};

/// In a block record.
const PAIRS_AT: usize = 6;

/// An instruction's bytes.
#[derive(Clone, Copy)]
struct Record<'a>(&'a [u8; INSTRUCTION_BYTES]);

impl<'a> Record<'a> {
    fn all(bytes: &'a [u8]) -> impl Iterator<Item = Record<'a>> + Clone {
        let records = bytes.chunks_exact(INSTRUCTION_BYTES);
        records.map(|record| Record(record.try_into().expect("twelve bytes")))
    }

    fn opcode(self) -> u8 {
        self.0[0]
    }

    fn r(self) -> u8 {
        self.0[1]
    }

    fn s(self) -> u8 {
        self.0[2]
    }

    fn kind(self) -> u8 {
        self.0[3]
    }

    fn operand(self) -> u64 {
        u64::from_le_bytes(self.0[4..].try_into().expect("eight bytes"))
    }

    #[inline(always)]
    fn op(self, row: &Row, count: u16) -> Op {
        let operand = match row.fault {
            0 => self.operand(),
            number => number.into(),
        };
        Op {
            code: row.code,
            r: Register::of(self.r()),
            s: Register::of(self.s()),
            v: Register::of(operand as u8),
            count,
            operand: Operand(operand),
        }
    }
}

/// The program of an image that the reader accepts, for jobs with this call record.
pub fn code(image: &[u8], words: &[u8]) -> Code {
    let version = u16::from_le_bytes([image[3], image[4]]);
    let length = block_bytes(version) * usize::from(image[5]);
    let (records, instructions) = image[HEADER_BYTES..].split_at(length);
    let mut blocks = if version == VERSION_2 {
        blocks::<{ block_bytes(VERSION_2) }>(records)
    } else {
        blocks::<{ block_bytes(VERSION_1) }>(records)
    };
    let mut ops = Vec::with_capacity(instructions.len() / INSTRUCTION_BYTES);
    let mut rest = instructions;
    for label in 0..blocks.len() {
        let first = usize::from(blocks[label].to.first);
        let length = match blocks.get(label + 1) {
            Some(next) => INSTRUCTION_BYTES * (usize::from(next.to.first) - first),
            None => rest.len(),
        };
        let (block, after) = rest.split_at(length);
        rest = after;
        blocks[label].to.needs = decode_block(block, &mut ops);
    }
    for op in &mut ops {
        if op.code.is_to_complete() {
            complete(op, &blocks, words);
        }
    }
    Code { ops, blocks }
}

/// Appends a block's operations as far as its own instructions settle them, and hands back what it
/// needs.
fn decode_block(block: &[u8], ops: &mut Vec<Op>) -> u32 {
    let first = ops.len();
    let mut needs = Needs::default();
    let mut count = 0;
    ops.extend(Record::all(block).map(|record| {
        let row = row(record.opcode(), record.kind());
        count += 1;
        let op = record.op(row, count);
        needs.add(row, &op);
        count &= row.counts_on;
        op
    }));
    needs.settled(&mut ops[first..])
}

/// What the blocks or the call record settle.
fn complete(op: &mut Op, blocks: &[Block], words: &[u8]) {
    match op.code {
        OpCode::Jump | OpCode::IfJump => {
            op.operand = Operand::of_target(blocks[usize::from(op.operand.byte())].to);
        }
        OpCode::DivideInteger | OpCode::RemainderInteger if op.operand.integer() == 0 => {
            op.code = OpCode::ByZero;
        }
        OpCode::WordInteger => match word(words, op.operand.integer()) {
            Some(word) => {
                op.code = OpCode::Set;
                op.operand = Operand(word as u64);
            }
            None => set_fault(op, fault::INDEX),
        },
        OpCode::Allocate if !blocks[usize::from(op.operand.byte())].is_join_target() => {
            set_fault(op, fault::JOIN_TARGET);
        }
        _ => {}
    }
}

fn set_fault(op: &mut Op, number: u8) {
    op.code = OpCode::Fault;
    op.operand = Operand(number.into());
}

/// Of records of so many bytes.
fn blocks<const BYTES: usize>(records: &[u8]) -> Vec<Block> {
    let records = records.chunks_exact(BYTES).zip(0..);
    records
        .map(|(record, label)| block::<BYTES>(record, label))
        .collect()
}

#[inline(always)]
fn block<const BYTES: usize>(record: &[u8], label: u8) -> Block {
    let mut pairs = [0; MAX_PAIRS];
    pairs[..BYTES - PAIRS_AT].copy_from_slice(&record[PAIRS_AT..BYTES]);
    Block {
        to: Target {
            needs: 0,
            first: u16::from_le_bytes([record[0], record[1]]),
            label,
        },
        annotation: record[2],
        label: record[4],
        pair_count: record[5],
        pairs,
    }
}
