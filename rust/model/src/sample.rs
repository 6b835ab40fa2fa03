//! Programs for the tests.

use crate::image::{Block, Instruction, Program, MAX_PAIRS, VERSION_1, VERSION_2};
use crate::opcode;

#[derive(Clone, Copy)]
pub enum Operand {
    Reg(u8),
    Lab(u8),
    Int(i64),
}

use Operand::{Int, Lab, Reg};

pub fn instruction(opcode: u8, r: u8, s: u8, v: Operand) -> Instruction {
    let (kind, operand) = match v {
        Reg(register) => (1, register.into()),
        Lab(label) => (2, label.into()),
        Int(integer) => (3, integer as u64),
    };
    Instruction {
        opcode,
        r,
        s,
        kind,
        operand,
    }
}

pub const HALT: Instruction = Instruction {
    opcode: opcode::HALT,
    r: 0,
    s: 0,
    kind: 0,
    operand: 0,
};

pub const PLAIN: Block = Block::PLAIN;

/// A block's pair bytes, of which these are used.
pub fn pairs(used: &[u8]) -> [u8; MAX_PAIRS] {
    let mut pairs = [0; MAX_PAIRS];
    pairs[..used.len()].copy_from_slice(used);
    pairs
}

pub fn push(v: Operand) -> Instruction {
    instruction(opcode::PUSH, 0, 0, v)
}

pub fn pop(r: u8) -> Instruction {
    Instruction {
        opcode: opcode::POP,
        r,
        ..HALT
    }
}

/// Blocks with their annotations and code; the starts are counted here.
pub fn program(blocks: &[(Block, &[Instruction])]) -> Program {
    let mut program = Program {
        version: VERSION_1,
        blocks: Vec::new(),
        instructions: Vec::new(),
    };
    for (block, code) in blocks {
        let first = program.instructions.len() as u16;
        program.blocks.push(Block { first, ..*block });
        program.instructions.extend(*code);
    }
    program
}

/// The same of version 2.
pub fn second(blocks: &[(Block, &[Instruction])]) -> Program {
    Program {
        version: VERSION_2,
        ..program(blocks)
    }
}

/// Document 01's program F.
pub fn f() -> Program {
    let target = Block {
        annotation: 2,
        label: 3,
        pair_count: 1,
        pairs: pairs(&[0x02]),
        ..PLAIN
    };
    let join = instruction(opcode::JOIN, 0, 0, Reg(1));
    program(&[
        (
            PLAIN,
            &[
                instruction(opcode::JRALLOC, 1, 0, Lab(2)),
                instruction(opcode::FORK, 0, 1, Lab(1)),
                instruction(opcode::ADD, 0, 0, Int(1)),
                join,
            ],
        ),
        (PLAIN, &[instruction(opcode::MOVE, 0, 0, Int(7)), join]),
        (target, &[HALT]),
        (PLAIN, &[instruction(opcode::ADD, 0, 0, Reg(2)), join]),
    ])
}

/// One block that counts r0 down and then halts: three instructions for each and two more.
pub fn countdown() -> Program {
    program(&[
        (
            PLAIN,
            &[
                instruction(opcode::IF_JUMP, 0, 0, Lab(1)),
                instruction(opcode::SUBTRACT, 0, 0, Int(1)),
                instruction(opcode::JUMP, 0, 0, Lab(0)),
            ],
        ),
        (PLAIN, &[HALT]),
    ])
}

/// A task that forks under one record until its places are used up, and children that only join.
pub fn forks() -> Program {
    let target = Block {
        annotation: 2,
        label: 2,
        ..PLAIN
    };
    let join = [instruction(opcode::JOIN, 0, 0, Reg(1))];
    let mut code = vec![instruction(opcode::JRALLOC, 1, 0, Lab(1))];
    code.resize(8, instruction(opcode::FORK, 0, 1, Lab(2)));
    code.push(HALT);
    program(&[(PLAIN, &code), (target, &[HALT]), (PLAIN, &join)])
}

/// A subroutine, block 2, that adds 5 to r0, called from two places: eleven instructions. The return
/// label goes through r1.
pub fn calls() -> Program {
    let to_subroutine = instruction(opcode::JUMP, 0, 0, Lab(2));
    second(&[
        (PLAIN, &[push(Lab(1)), to_subroutine]),
        (PLAIN, &[push(Lab(3)), to_subroutine]),
        (
            PLAIN,
            &[
                instruction(opcode::ADD, 0, 0, Int(5)),
                pop(1),
                instruction(opcode::JUMP, 0, 0, Reg(1)),
            ],
        ),
        (PLAIN, &[HALT]),
    ])
}

/// F with stacks. The task pushes 10 and forks; the parent's side pushes 20 before it joins, the
/// child's is as given. The joined task pops r3 and r4.
pub fn stacked(child: &[Instruction]) -> Program {
    let target = Block {
        annotation: 2,
        label: 3,
        ..PLAIN
    };
    let join = instruction(opcode::JOIN, 0, 0, Reg(1));
    let mut side = child.to_vec();
    side.push(join);
    second(&[
        (
            PLAIN,
            &[
                instruction(opcode::JRALLOC, 1, 0, Lab(2)),
                push(Int(10)),
                instruction(opcode::FORK, 0, 1, Lab(1)),
                push(Int(20)),
                join,
            ],
        ),
        (PLAIN, &side),
        (target, &[HALT]),
        (PLAIN, &[pop(3), pop(4), join]),
    ])
}
