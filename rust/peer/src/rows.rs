//! What each opcode comes to with each kind of operand.

use crate::op::OpCode;
use model::fault;

/// Masks are of all registers or of none.
#[derive(Clone, Copy)]
pub struct Row {
    pub code: OpCode,
    /// Whether r, s and v are set or read as integers.
    pub r: u32,
    pub s: u32,
    pub v: u32,
    /// Whether r is set to anything else.
    pub other: u32,
    /// Whether the block's other operations settle what it comes to.
    pub is_move: bool,
    /// 0 if the count begins anew after it.
    pub counts_on: u16,
    /// Of what can only fault.
    pub fault: u8,
}

const ALL: u32 = 0xffff;

const fn plain(code: OpCode) -> Row {
    Row {
        code,
        r: 0,
        s: 0,
        v: 0,
        other: 0,
        is_move: false,
        counts_on: u16::MAX,
        fault: 0,
    }
}

const fn fork(code: OpCode) -> Row {
    Row {
        counts_on: 0,
        ..plain(code)
    }
}

const fn fault(number: u8) -> Row {
    Row {
        fault: number,
        ..plain(OpCode::Fault)
    }
}

/// `r := s op v` of registers.
const fn combined(code: OpCode) -> Row {
    Row {
        v: ALL,
        ..with_integer(code)
    }
}

/// The same with an integer.
const fn with_integer(code: OpCode) -> Row {
    Row {
        r: ALL,
        s: ALL,
        ..plain(code)
    }
}

/// Sets r to an integer.
const fn set(code: OpCode) -> Row {
    Row {
        r: ALL,
        ..plain(code)
    }
}

/// Sets r to a label or a record.
const fn other(code: OpCode) -> Row {
    Row {
        other: ALL,
        ..plain(code)
    }
}

/// Reads s as an integer.
const fn test(code: OpCode) -> Row {
    Row {
        s: ALL,
        ..plain(code)
    }
}

/// A copy, a push or a pop of anything.
const fn moved(code: OpCode) -> Row {
    Row {
        is_move: true,
        ..plain(code)
    }
}

const WORD: Row = Row {
    v: ALL,
    ..set(OpCode::Word)
};

/// Of no instruction: questions 8 and 9 have been put.
const NONE: Row = plain(OpCode::Halt);

const fn operation(register: OpCode, integer: OpCode) -> [Row; 4] {
    let label = fault(fault::INTEGERS);
    [NONE, combined(register), label, with_integer(integer)]
}

/// For each opcode: without an operand, with a register, with a label and with an integer. There are
/// more than opcodes, so that the number of one needs no test.
static ROWS: [[Row; 4]; 32] = {
    use OpCode::*;
    let mut rows = [[NONE; 4]; 32];
    let opcodes = [
        [NONE; 4],
        [NONE, moved(CopyAny), other(SetLabel), set(Set)],
        operation(Add, AddInteger),
        operation(Subtract, SubtractInteger),
        operation(Multiply, MultiplyInteger),
        operation(Divide, DivideInteger),
        operation(Remainder, RemainderInteger),
        operation(Less, LessInteger),
        operation(Equal, EqualInteger),
        [NONE, WORD, fault(fault::INTEGERS), set(WordInteger)],
        [NONE, test(IfJumpBy), test(IfJump), test(IfFault)],
        [
            NONE,
            other(AllocateBy),
            other(Allocate),
            fault(fault::JOIN_TARGET),
        ],
        [NONE, fork(ForkBy), fork(Fork), plain(ForkNowhere)],
        [NONE, plain(JumpBy), plain(Jump), fault(fault::TARGET)],
        [NONE; 4],
        [
            NONE,
            plain(Join),
            fault(fault::RECORD),
            fault(fault::RECORD),
        ],
        [NONE, moved(PushAny), plain(PushLabel), plain(PushInteger)],
        [moved(PopAny), NONE, NONE, NONE],
    ];
    let mut opcode = 0;
    while opcode < opcodes.len() {
        rows[opcode] = opcodes[opcode];
        opcode += 1;
    }
    rows
};

/// The row of an instruction that questions 8 and 9 accept.
#[inline(always)]
pub fn row(opcode: u8, kind: u8) -> &'static Row {
    &ROWS[usize::from(opcode & 31)][usize::from(kind & 3)]
}
