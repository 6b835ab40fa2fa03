//! One task, and one instruction carried out on it.
//!
//! The machine and the plain evaluation share this file and nothing else: what becomes of a fork,
//! a wait, a fault or a halt is up to each of them.

use crate::image::{Instruction, Program};
use crate::stack::Stack;
use crate::{fault, opcode};
use std::mem;

pub const REGISTERS: usize = 16;
/// 64 places can be halved six times.
pub const MAX_DEPTH: usize = 6;

#[derive(Clone, Copy, Debug, PartialEq, Eq)]
pub enum Value {
    Int(i64),
    Label(u8),
    Record(Record),
}

/// A join record. Those with the same two numbers are the same.
#[derive(Clone, Copy, Debug, PartialEq, Eq)]
pub struct Record {
    pub continuation: u8,
    /// The depth of the task that made it; in a state that no order leads to, any number.
    pub depth: u32,
}

/// What stands for a fork that isn't open.
pub(crate) const NO_FORK: Record = Record {
    continuation: 0,
    depth: 0,
};

pub type Registers = [Value; REGISTERS];

/// What a fault leaves of a task's registers.
pub const ZEROS: Registers = [Value::Int(0); REGISTERS];

#[derive(Clone, Debug, PartialEq, Eq)]
pub struct Task {
    pub registers: Registers,
    pub stack: Stack,
    pub places: u8,
    /// Program counter: the number of the next instruction.
    pub pc: u16,
    /// Instructions since the last promotion, fork (in a child) or join.
    pub counter: u32,
    pub span: u32,
    /// The first `depth` are open, the outermost first; the others are 0.
    pub(crate) forks: [Record; MAX_DEPTH],
    pub(crate) depth: u8,
}

/// What a task's instructions look at besides the task.
#[derive(Clone, Copy, Debug)]
pub struct Surroundings<'a> {
    pub program: &'a Program,
    /// The call record.
    pub words: &'a [i64],
    pub interval: u16,
}

/// What an instruction asks of those who hold the task.
#[derive(Clone, Copy, Debug, PartialEq, Eq)]
pub enum Step {
    /// Nothing: the task goes on.
    Onward,
    /// To fork under this record, the child to start this block.
    Fork {
        record: Record,
        target: u8,
    },
    /// To join the two sides of the innermost open fork when the other has ended too.
    Wait,
    Halt,
    Fault(u8),
}

impl Task {
    /// What stands in the place of a task where there is none.
    pub const NONE: Task = Task {
        registers: ZEROS,
        stack: Stack::EMPTY,
        places: 0,
        pc: 0,
        counter: 0,
        span: 0,
        forks: [NO_FORK; MAX_DEPTH],
        depth: 0,
    };

    /// The one task of a fresh start, at block 0.
    pub fn new(registers: &[i64; REGISTERS], places: u8) -> Self {
        Task {
            registers: registers.map(Value::Int),
            places,
            ..Task::NONE
        }
    }

    /// Takes over from a parent that has just forked, but for its counter and its stack: that of a
    /// child is empty, so nothing of it is copied.
    #[inline]
    pub(crate) fn become_child_of(&mut self, parent: &Task) {
        self.registers = parent.registers;
        self.stack.clear();
        self.places = parent.places;
        self.pc = parent.pc;
        self.counter = 0;
        self.span = parent.span;
        self.forks = parent.forks;
        self.depth = parent.depth;
    }

    /// Number of open forks.
    pub fn depth(&self) -> usize {
        usize::from(self.depth)
    }

    /// Open forks, the outermost first.
    pub fn forks(&self) -> &[Record] {
        &self.forks[..self.depth()]
    }

    pub fn open_fork(&mut self, record: Record) {
        self.forks[self.depth()] = record;
        self.depth += 1;
    }

    /// Closes the innermost fork, of which there is one, and hands back its record.
    pub fn close_fork(&mut self) -> Record {
        self.depth -= 1;
        mem::replace(&mut self.forks[usize::from(self.depth)], NO_FORK)
    }

    /// Whether the entries of forks that are not open are 0, and there are no more open than entries.
    pub(crate) fn has_clear_forks(&self) -> bool {
        let others = self.forks.get(self.depth()..);
        others.map_or(false, |others| others.iter().all(|&fork| fork == NO_FORK))
    }

    /// Issues the next instruction. One that faults counts too, and leaves nothing in the task.
    #[inline(always)]
    pub fn step(&mut self, surroundings: &Surroundings) -> Step {
        self.counter += 1;
        self.span += 1;
        match self.issue(surroundings) {
            Ok(step) => step,
            Err(number) => {
                self.forget();
                Step::Fault(number)
            }
        }
    }

    /// What a fault does to registers and stack.
    #[inline]
    pub fn forget(&mut self) {
        self.registers = ZEROS;
        self.stack.clear();
    }

    /// Leaves nothing of the task but its stack's memory.
    #[inline]
    pub(crate) fn clear(&mut self) {
        self.forget();
        self.places = 0;
        self.pc = 0;
        self.counter = 0;
        self.span = 0;
        self.forks = [NO_FORK; MAX_DEPTH];
        self.depth = 0;
    }

    #[inline(always)]
    fn issue(&mut self, surroundings: &Surroundings) -> Result<Step, u8> {
        let instruction = &surroundings.program.instructions[usize::from(self.pc)];
        match instruction.opcode {
            opcode::MOVE => self.set(instruction, self.operand(instruction)),
            opcode::ADD => self.combine(instruction, |a, b| Ok(a.wrapping_add(b))),
            opcode::SUBTRACT => self.combine(instruction, |a, b| Ok(a.wrapping_sub(b))),
            opcode::MULTIPLY => self.combine(instruction, |a, b| Ok(a.wrapping_mul(b))),
            opcode::DIVIDE => self.combine(instruction, |a, b| Ok(a.wrapping_div(divisor(b)?))),
            opcode::REMAINDER => self.combine(instruction, |a, b| Ok(a.wrapping_rem(divisor(b)?))),
            opcode::LESS => self.combine(instruction, |a, b| Ok(truth(a < b))),
            opcode::EQUAL => self.combine(instruction, |a, b| Ok(truth(a == b))),
            opcode::WORD => self.word(instruction, surroundings.words),
            opcode::IF_JUMP => {
                if self.integer(instruction.s)? != 0 {
                    self.pc += 1;
                    return Ok(Step::Onward);
                }
                self.jump(instruction, surroundings)
            }
            opcode::JRALLOC => self.allocate(instruction, surroundings.program),
            opcode::FORK => self.fork(instruction),
            opcode::JUMP => self.jump(instruction, surroundings),
            opcode::HALT if self.depth != 0 => Err(fault::OPEN_FORK),
            opcode::HALT => Ok(Step::Halt),
            opcode::JOIN => self.join(instruction, surroundings),
            opcode::PUSH => self.push(instruction),
            opcode::POP => self.pop(instruction),
            number => unreachable!("opcode {} in a program that was checked", number),
        }
    }

    /// Sets r and goes on to the next instruction.
    #[inline]
    fn set(&mut self, instruction: &Instruction, value: Value) -> Result<Step, u8> {
        self.registers[register(instruction.r)] = value;
        self.pc += 1;
        Ok(Step::Onward)
    }

    #[inline]
    fn operand(&self, instruction: &Instruction) -> Value {
        match instruction.kind {
            1 => self.registers[register(instruction.operand as u8)],
            2 => Value::Label(instruction.operand as u8),
            _ => Value::Int(instruction.operand as i64),
        }
    }

    #[inline]
    fn integer(&self, number: u8) -> Result<i64, u8> {
        match self.registers[register(number)] {
            Value::Int(integer) => Ok(integer),
            _ => Err(fault::INTEGERS),
        }
    }

    /// The operand as an integer. Not by way of `operand`: a register's kind and number were
    /// stored apart, and a copy of both together would wait for the two stores.
    #[inline]
    fn integer_operand(&self, instruction: &Instruction) -> Result<i64, u8> {
        match instruction.kind {
            1 => self.integer(instruction.operand as u8),
            2 => Err(fault::INTEGERS),
            _ => Ok(instruction.operand as i64),
        }
    }

    #[inline]
    fn combine(
        &mut self,
        instruction: &Instruction,
        op: impl FnOnce(i64, i64) -> Result<i64, u8>,
    ) -> Result<Step, u8> {
        let a = self.integer(instruction.s)?;
        let b = self.integer_operand(instruction)?;
        self.set(instruction, Value::Int(op(a, b)?))
    }

    fn word(&mut self, instruction: &Instruction, words: &[i64]) -> Result<Step, u8> {
        let index = self.integer_operand(instruction)?;
        let index = usize::try_from(index).map_err(|_| fault::INDEX)?;
        match words.get(index) {
            Some(&word) => self.set(instruction, Value::Int(word)),
            None => Err(fault::INDEX),
        }
    }

    fn allocate(&mut self, instruction: &Instruction, program: &Program) -> Result<Step, u8> {
        let continuation = match self.operand(instruction) {
            Value::Label(label) if program.blocks[usize::from(label)].is_join_target() => label,
            _ => return Err(fault::JOIN_TARGET),
        };
        let record = Record {
            continuation,
            depth: self.depth.into(),
        };
        self.set(instruction, Value::Record(record))
    }

    fn fork(&mut self, instruction: &Instruction) -> Result<Step, u8> {
        let record = self.fitting(self.registers[register(instruction.s)])?;
        let target = label(self.operand(instruction))?;
        if self.places < 2 {
            return Err(fault::PLACES);
        }
        self.pc += 1;
        Ok(Step::Fork { record, target })
    }

    fn join(&mut self, instruction: &Instruction, surroundings: &Surroundings) -> Result<Step, u8> {
        let record = self.fitting(self.operand(instruction))?;
        if record.depth != u32::from(self.depth) {
            return Ok(Step::Wait);
        }
        self.enter(surroundings, record.continuation);
        Ok(Step::Onward)
    }

    fn push(&mut self, instruction: &Instruction) -> Result<Step, u8> {
        self.stack.push(self.operand(instruction))?;
        self.pc += 1;
        Ok(Step::Onward)
    }

    fn pop(&mut self, instruction: &Instruction) -> Result<Step, u8> {
        let value = self.stack.pop()?;
        self.set(instruction, value)
    }

    /// What jump and a taken if-jump do.
    #[inline]
    fn jump(&mut self, instruction: &Instruction, surroundings: &Surroundings) -> Result<Step, u8> {
        let target = label(self.operand(instruction))?;
        self.enter(surroundings, target);
        Ok(Step::Onward)
    }

    /// The value as a record that fits this task: not deeper than it, and every fork opened beyond
    /// the record's depth belongs to the record.
    fn fitting(&self, value: Value) -> Result<Record, u8> {
        match value {
            Value::Record(record) if self.fits(record) => Ok(record),
            _ => Err(fault::RECORD),
        }
    }

    fn fits(&self, record: Record) -> bool {
        match self.forks().get(record.depth as usize..) {
            None => false,
            Some(beyond) => beyond.iter().all(|&fork| fork == record),
        }
    }

    /// Enters a block by jump, taken if-jump or join, or its handler in its place: document 01's
    /// rule, with document 02's request 1.
    #[inline]
    fn enter(&mut self, surroundings: &Surroundings, target: u8) {
        let blocks = &surroundings.program.blocks;
        let mut block = &blocks[usize::from(target)];
        if block.is_promotion_ready()
            && surroundings.interval != 0
            && self.counter >= u32::from(surroundings.interval)
            && self.places >= 2
        {
            self.counter = 0;
            block = &blocks[usize::from(block.label)];
        }
        self.pc = block.first;
    }
}

/// A register's number, in a form that shows the compiler its bound.
#[inline]
fn register(number: u8) -> usize {
    usize::from(number) & (REGISTERS - 1)
}

#[inline]
fn label(value: Value) -> Result<u8, u8> {
    match value {
        Value::Label(label) => Ok(label),
        _ => Err(fault::TARGET),
    }
}

#[inline]
fn divisor(integer: i64) -> Result<i64, u8> {
    match integer {
        0 => Err(fault::DIVISOR),
        _ => Ok(integer),
    }
}

/// A comparison's value: 0 when true.
#[inline]
fn truth(holds: bool) -> i64 {
    i64::from(!holds)
}

#[cfg(test)]
mod tests;
