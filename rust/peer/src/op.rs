//! Operations, as instructions are decoded to them: one for each instruction, in the same places.

/// A register's number. As an enum, so that the compiler knows its bound.
#[derive(Clone, Copy, Debug, PartialEq, Eq)]
#[rustfmt::skip]
pub enum Register { R0, R1, R2, R3, R4, R5, R6, R7, R8, R9, R10, R11, R12, R13, R14, R15 }

impl Register {
    #[rustfmt::skip]
    const ALL: [Register; 16] = {
        use Register::*;
        [R0, R1, R2, R3, R4, R5, R6, R7, R8, R9, R10, R11, R12, R13, R14, R15]
    };

    /// Of a number that question 8 has found to be below 16.
    #[inline(always)]
    pub fn of(number: u8) -> Self {
        Register::ALL[usize::from(number & 15)]
    }

    #[inline(always)]
    pub fn index(self) -> usize {
        self as usize
    }

    /// Its bit in a mask of registers.
    #[inline(always)]
    pub fn bit(self) -> u32 {
        1 << self as u32
    }
}

/// Where a jump leads.
#[derive(Clone, Copy, Debug)]
pub struct Target {
    /// The registers that the block reads or sets as integers. When all of them hold integers, none
    /// of its operations need ask.
    pub needs: u32,
    /// Its first operation.
    pub first: u16,
    pub label: u8,
}

/// An operation. Its fields stand where an instruction's do, in 16 bytes, so that most of them are
/// copied; one that the code has no use for holds anything.
#[derive(Clone, Copy, Debug)]
pub struct Op {
    pub code: OpCode,
    pub r: Register,
    pub s: Register,
    /// An operand that is a register.
    pub v: Register,
    /// The instructions since the block began, or since the fork before, this one included.
    pub count: u16,
    /// An integer, a label, where a jump leads, or a fault's number.
    pub operand: Operand,
}

/// What an operation does: an opcode with the kind of its operand.
#[derive(Clone, Copy, Debug, PartialEq, Eq)]
pub enum OpCode {
    /// To an integer, or to the word at an index that is inside the record.
    Set,
    SetLabel,
    /// A copy between registers that the block needs integers in.
    Copy,
    CopyAny,
    AddInteger,
    SubtractInteger,
    MultiplyInteger,
    /// The divisor is not 0.
    DivideInteger,
    RemainderInteger,
    LessInteger,
    EqualInteger,
    Add,
    Subtract,
    Multiply,
    Divide,
    Remainder,
    Less,
    Equal,
    /// A division by the integer 0.
    ByZero,
    WordInteger,
    Word,
    IfJump,
    IfJumpBy,
    /// An if-jump to what is no label.
    IfFault,
    /// With the label of a join target.
    Allocate,
    AllocateBy,
    Fork,
    ForkBy,
    /// A fork to what is no label.
    ForkNowhere,
    Jump,
    JumpBy,
    Halt,
    Join,
    PushInteger,
    PushLabel,
    /// Of a register that the block needs an integer in.
    Push,
    PushAny,
    /// To a register that the block needs an integer in.
    Pop,
    PopAny,
    /// What can only fault.
    Fault,
}

impl OpCode {
    /// Whether the blocks or the call record settle something of it.
    pub fn is_to_complete(self) -> bool {
        use OpCode::*;
        let divides = matches!(self, DivideInteger | RemainderInteger);
        divides || matches!(self, WordInteger | IfJump | Allocate | Jump)
    }

    /// Whether the next operation's count begins anew.
    pub fn ends_count(self) -> bool {
        use OpCode::*;
        matches!(self, Fork | ForkBy | Jump | JumpBy | Halt | Join | Fault)
    }
}

/// Eight bytes, read as the code has it.
#[derive(Clone, Copy, Debug)]
pub struct Operand(pub u64);

impl Operand {
    #[inline(always)]
    pub fn integer(self) -> i64 {
        self.0 as i64
    }

    /// A label's or a fault's number.
    #[inline(always)]
    pub fn byte(self) -> u8 {
        self.0 as u8
    }

    #[inline(always)]
    pub fn target(self) -> Target {
        Target {
            needs: (self.0 >> 32) as u32,
            first: (self.0 >> 8) as u16,
            label: self.0 as u8,
        }
    }

    pub fn of_target(to: Target) -> Self {
        Operand(u64::from(to.needs) << 32 | u64::from(to.first) << 8 | u64::from(to.label))
    }
}

/// A program, decoded.
pub struct Code {
    pub ops: Vec<Op>,
    pub blocks: Vec<Block>,
}

pub struct Block {
    pub to: Target,
    /// 1 promotion-ready, 2 join target.
    pub annotation: u8,
    /// Handler or combining block.
    pub label: u8,
    pub pair_count: u8,
    pub pairs: [u8; model::MAX_PAIRS],
}

impl Block {
    pub fn is_ready(&self) -> bool {
        self.annotation == 1
    }

    pub fn is_join_target(&self) -> bool {
        self.annotation == 2
    }

    /// The used pairs: the child's register and the target.
    pub fn register_pairs(&self) -> impl Iterator<Item = (Register, Register)> + '_ {
        let used = self.pairs.iter().take(self.pair_count.into());
        used.map(|&pair| (Register::of(pair >> 4), Register::of(pair & 15)))
    }
}
