//! A task: its registers and its stack, and what it counts.

use crate::needs::CARE;
use crate::op::Register;
use crate::stack::Stack;
use model::{Record, Registers, Value, REGISTERS};

/// The number of a register that holds a record: its continuation, and from here on its depth.
const DEPTH_AT: u32 = 8;

#[derive(Clone, Copy)]
pub struct Task {
    /// Integers, labels, and records as numbers.
    values: [i64; REGISTERS],
    /// The registers that hold no integer; and `CARE`.
    pub others: u32,
    /// Those of them that hold a record.
    records: u32,
    /// The work at which a block that is promotion-ready, or a spent budget, is to be looked at.
    pub beat: u64,
    /// While the task is evaluated, the work less its span; else its span.
    pub span: u64,
    pub places: u8,
    pub stack: Stack,
}

impl Task {
    pub fn new(registers: &[i64; REGISTERS], places: u8) -> Self {
        Task {
            values: *registers,
            others: CARE,
            records: 0,
            beat: 0,
            span: 0,
            places,
            stack: Stack::EMPTY,
        }
    }

    /// All of the parent's but its stack: that of a child is empty.
    #[inline(always)]
    pub fn become_child_of(&mut self, parent: &Task) {
        self.values = parent.values;
        self.others = parent.others;
        self.records = parent.records;
        self.beat = parent.beat;
        self.span = parent.span;
        self.places = parent.places;
        self.stack.clear();
    }

    #[inline(always)]
    pub fn value(&self, register: Register) -> i64 {
        self.values[register.index()]
    }

    #[inline(always)]
    pub fn is_integer(&self, register: Register) -> bool {
        self.others & register.bit() == 0
    }

    #[inline(always)]
    pub fn label(&self, register: Register) -> Option<u8> {
        let is_label = self.others & !self.records & register.bit() != 0;
        is_label.then(|| self.value(register) as u8)
    }

    /// The number of the record there.
    #[inline(always)]
    pub fn record(&self, register: Register) -> Option<i64> {
        let is_record = self.others & self.records & register.bit() != 0;
        is_record.then(|| self.value(register))
    }

    /// Without care, the register is known to hold an integer already.
    #[inline(always)]
    pub fn set<const CARE: bool>(&mut self, r: Register, integer: i64) {
        self.values[r.index()] = integer;
        if CARE {
            self.others &= !r.bit();
        }
    }

    pub fn set_label(&mut self, r: Register, label: u8) {
        self.values[r.index()] = label.into();
        self.others |= r.bit();
        self.records &= !r.bit();
    }

    /// With a depth as `depth_bits` has it.
    pub fn set_record(&mut self, r: Register, continuation: u8, depth: i64) {
        self.values[r.index()] = i64::from(continuation) | depth;
        self.others |= r.bit();
        self.records |= r.bit();
    }

    /// Of anything, from a register of a task or from its stack.
    #[inline]
    pub fn copy(&mut self, r: Register, from: &Held) {
        self.values[r.index()] = from.value;
        let kind = u32::from(from.kind.0);
        self.others = self.others & !r.bit() | (kind & 1) << r.index();
        self.records = self.records & !r.bit() | (kind >> 1) << r.index();
    }

    #[inline]
    pub fn copied(&self, v: Register) -> Held {
        let other = self.others >> v.index() & 1;
        let record = self.records >> v.index() & 1;
        Held {
            value: self.value(v),
            kind: Kind((other | record << 1) as u8),
        }
    }

    /// `r := s op v` of registers. Whether it was done: both are integers.
    #[inline(always)]
    pub fn combine<const CARE: bool>(
        &mut self,
        (r, s, v): (Register, Register, Register),
        op: impl Fn(i64, i64) -> i64,
    ) -> bool {
        if CARE && !(self.is_integer(s) && self.is_integer(v)) {
            return false;
        }
        self.set::<CARE>(r, op(self.value(s), self.value(v)));
        true
    }

    /// The same with an integer v.
    #[inline(always)]
    pub fn combine_integer<const CARE: bool>(
        &mut self,
        (r, s, v): (Register, Register, i64),
        op: impl Fn(i64, i64) -> i64,
    ) -> bool {
        if CARE && !self.is_integer(s) {
            return false;
        }
        self.set::<CARE>(r, op(self.value(s), v));
        true
    }

    /// A copy in a block that needs integers in both.
    #[inline(always)]
    pub fn copy_integer<const CARE: bool>(&mut self, r: Register, v: Register) {
        if CARE {
            self.copy(r, &self.copied(v));
        } else {
            self.values[r.index()] = self.value(v);
        }
    }

    /// What is in a register that the block needs an integer in.
    #[inline(always)]
    pub fn copied_integer<const CARE: bool>(&self, v: Register) -> Held {
        if CARE {
            self.copied(v)
        } else {
            Held::integer(self.value(v))
        }
    }

    pub fn registers(&self) -> Registers {
        let mut registers = [Value::Int(0); REGISTERS];
        for (number, register) in (0..).zip(&mut registers) {
            *register = self.shown(Register::of(number));
        }
        registers
    }

    fn shown(&self, register: Register) -> Value {
        if let Some(label) = self.label(register) {
            return Value::Label(label);
        }
        match self.record(register) {
            Some(record) => Value::Record(Record {
                continuation: continuation(record),
                depth: (record >> DEPTH_AT) as u32,
            }),
            None => Value::Int(self.value(register)),
        }
    }
}

/// What a register or a place on a stack holds.
#[derive(Clone, Copy)]
pub struct Held {
    pub value: i64,
    pub kind: Kind,
}

/// The lowest bit is 1 if it is no integer, and then the next if it is a record.
#[derive(Clone, Copy)]
pub struct Kind(u8);

impl Kind {
    pub const INTEGER: Kind = Kind(0);
    const LABEL: Kind = Kind(1);

    #[inline(always)]
    pub fn is_integer(self) -> bool {
        self.0 & 1 == 0
    }
}

impl Held {
    #[inline(always)]
    pub fn integer(value: i64) -> Self {
        Held {
            value,
            kind: Kind::INTEGER,
        }
    }

    #[inline(always)]
    pub fn label(label: u8) -> Self {
        Held {
            value: label.into(),
            kind: Kind::LABEL,
        }
    }
}

#[inline(always)]
pub fn continuation(record: i64) -> u8 {
    record as u8
}

#[inline(always)]
pub fn depth_bits(depth: usize) -> i64 {
    (depth as i64) << DEPTH_AT
}

/// Whether a record was made at this depth, as `depth_bits` has it.
#[inline(always)]
pub fn is_at(record: i64, depth: i64) -> bool {
    record & !i64::from(u8::MAX) == depth
}
