//! One task from block to block, until it asks something of those who hold it.

use crate::job::word;
use crate::needs;
use crate::op::{Code, Op, OpCode, Target};
use crate::task::{continuation, is_at, Held, Task};
use model::fault;

/// Why a task does not go on by itself.
pub enum Stop {
    /// It forks under this record, the child to start this block; it goes on with operation `next`.
    Fork {
        record: i64,
        label: u8,
        next: usize,
    },
    /// Its side of the innermost fork has ended.
    Wait,
    Fault(u8),
    Halt,
    /// More was done than the budget allows.
    Spent,
    /// The block that is entered, or the rest of one, is to be gone through with care; or no longer so.
    Care(Target),
}

/// What a task's operations look at besides the task.
pub struct Scene<'a> {
    pub code: &'a Code,
    /// The call record's bytes.
    pub words: &'a [u8],
    pub interval: u16,
    /// The work allowed.
    pub limit: u64,
}

/// The innermost open fork.
#[derive(Clone, Copy)]
pub struct Innermost {
    /// The task's depth, as it stands in a record's number.
    pub depth: i64,
    pub record: i64,
}

impl Innermost {
    /// Whether a record fits the task. Every fork opened beyond a record's depth was opened under a
    /// record that fitted then. So those beyond it belong to it if the innermost does.
    fn fits(self, record: i64) -> bool {
        is_at(record, self.depth) || record == self.record
    }
}

impl Scene<'_> {
    /// Where the next look at the beat and the budget is due, for a task whose counter is 0.
    pub fn beat(&self, work: u64, places: u8) -> u64 {
        if self.interval == 0 || places < 2 {
            return self.limit + 1;
        }
        self.next_beat(work)
    }

    fn next_beat(&self, work: u64) -> u64 {
        (work + u64::from(self.interval)).min(self.limit + 1)
    }

    /// Runs a task from this operation on. Work is advanced where a block is left: a task can't
    /// look at it in between. One long match, and not inlined: so the loop has the processor's
    /// registers to itself, and takes a quarter fewer machine instructions.
    #[inline(never)]
    pub fn run<const CARE: bool>(
        &self,
        task: &mut Task,
        innermost: Innermost,
        first: usize,
        work: &mut u64,
    ) -> Stop {
        let ops = &self.code.ops[..];
        let mut rest = ops[first..].iter();
        let mut done = *work;
        let fault = 'run: loop {
            let op = match rest.next() {
                Some(op) => op,
                None => unreachable!("a block's last operation leads out of it"),
            };
            let mut to = match op.code {
                OpCode::Set => {
                    task.set::<CARE>(op.r, op.operand.integer());
                    continue;
                }
                OpCode::SetLabel => {
                    task.set_label(op.r, op.operand.byte());
                    continue;
                }
                OpCode::Copy => {
                    task.copy_integer::<CARE>(op.r, op.v);
                    continue;
                }
                OpCode::CopyAny => {
                    task.copy(op.r, &task.copied(op.v));
                    continue;
                }
                OpCode::AddInteger => {
                    if task.combine_integer::<CARE>(
                        (op.r, op.s, op.operand.integer()),
                        i64::wrapping_add,
                    ) {
                        continue;
                    }
                    break 'run fault::INTEGERS;
                }
                OpCode::SubtractInteger => {
                    if task.combine_integer::<CARE>(
                        (op.r, op.s, op.operand.integer()),
                        i64::wrapping_sub,
                    ) {
                        continue;
                    }
                    break 'run fault::INTEGERS;
                }
                OpCode::MultiplyInteger => {
                    if task.combine_integer::<CARE>(
                        (op.r, op.s, op.operand.integer()),
                        i64::wrapping_mul,
                    ) {
                        continue;
                    }
                    break 'run fault::INTEGERS;
                }
                OpCode::DivideInteger => {
                    if task.combine_integer::<CARE>(
                        (op.r, op.s, op.operand.integer()),
                        i64::wrapping_div,
                    ) {
                        continue;
                    }
                    break 'run fault::INTEGERS;
                }
                OpCode::RemainderInteger => {
                    if task.combine_integer::<CARE>(
                        (op.r, op.s, op.operand.integer()),
                        i64::wrapping_rem,
                    ) {
                        continue;
                    }
                    break 'run fault::INTEGERS;
                }
                OpCode::LessInteger => {
                    if task.combine_integer::<CARE>((op.r, op.s, op.operand.integer()), less) {
                        continue;
                    }
                    break 'run fault::INTEGERS;
                }
                OpCode::EqualInteger => {
                    if task.combine_integer::<CARE>((op.r, op.s, op.operand.integer()), equal) {
                        continue;
                    }
                    break 'run fault::INTEGERS;
                }
                OpCode::Add => {
                    if task.combine::<CARE>((op.r, op.s, op.v), i64::wrapping_add) {
                        continue;
                    }
                    break 'run fault::INTEGERS;
                }
                OpCode::Subtract => {
                    if task.combine::<CARE>((op.r, op.s, op.v), i64::wrapping_sub) {
                        continue;
                    }
                    break 'run fault::INTEGERS;
                }
                OpCode::Multiply => {
                    if task.combine::<CARE>((op.r, op.s, op.v), i64::wrapping_mul) {
                        continue;
                    }
                    break 'run fault::INTEGERS;
                }
                OpCode::Less => {
                    if task.combine::<CARE>((op.r, op.s, op.v), less) {
                        continue;
                    }
                    break 'run fault::INTEGERS;
                }
                OpCode::Equal => {
                    if task.combine::<CARE>((op.r, op.s, op.v), equal) {
                        continue;
                    }
                    break 'run fault::INTEGERS;
                }
                OpCode::Divide => {
                    if CARE && !(task.is_integer(op.s) && task.is_integer(op.v)) {
                        break 'run fault::INTEGERS;
                    }
                    if task.value(op.v) == 0 {
                        break 'run fault::DIVISOR;
                    }
                    task.set::<CARE>(op.r, task.value(op.s).wrapping_div(task.value(op.v)));
                    continue;
                }
                OpCode::Remainder => {
                    if CARE && !(task.is_integer(op.s) && task.is_integer(op.v)) {
                        break 'run fault::INTEGERS;
                    }
                    if task.value(op.v) == 0 {
                        break 'run fault::DIVISOR;
                    }
                    task.set::<CARE>(op.r, task.value(op.s).wrapping_rem(task.value(op.v)));
                    continue;
                }
                OpCode::ByZero if CARE && !task.is_integer(op.s) => break 'run fault::INTEGERS,
                OpCode::ByZero => break 'run fault::DIVISOR,
                OpCode::Word => {
                    if CARE && !task.is_integer(op.v) {
                        break 'run fault::INTEGERS;
                    }
                    match word(self.words, task.value(op.v)) {
                        Some(word) => task.set::<CARE>(op.r, word),
                        None => break 'run fault::INDEX,
                    }
                    continue;
                }
                OpCode::IfJump => {
                    if CARE && !task.is_integer(op.s) {
                        break 'run fault::INTEGERS;
                    }
                    if task.value(op.s) != 0 {
                        continue;
                    }
                    done += u64::from(op.count);
                    op.operand.target()
                }
                OpCode::IfJumpBy => {
                    if CARE && !task.is_integer(op.s) {
                        break 'run fault::INTEGERS;
                    }
                    if task.value(op.s) != 0 {
                        continue;
                    }
                    match task.label(op.v) {
                        Some(label) => {
                            done += u64::from(op.count);
                            self.target(label)
                        }
                        None => break 'run fault::TARGET,
                    }
                }
                OpCode::IfFault => {
                    if CARE && !task.is_integer(op.s) {
                        break 'run fault::INTEGERS;
                    }
                    if task.value(op.s) != 0 {
                        continue;
                    }
                    break 'run fault::TARGET;
                }
                OpCode::Allocate => {
                    task.set_record(op.r, op.operand.byte(), innermost.depth);
                    continue;
                }
                OpCode::AllocateBy => match task.label(op.v) {
                    Some(label) if self.code.blocks[usize::from(label)].is_join_target() => {
                        task.set_record(op.r, label, innermost.depth);
                        continue;
                    }
                    _ => break 'run fault::JOIN_TARGET,
                },
                OpCode::Fork => {
                    let record = match task.record(op.s) {
                        Some(record) if innermost.fits(record) => record,
                        _ => break 'run fault::RECORD,
                    };
                    if task.places < 2 {
                        break 'run fault::PLACES;
                    }
                    *work = done + u64::from(op.count);
                    let next = ops.len() - rest.as_slice().len();
                    let label = op.operand.byte();
                    return Stop::Fork {
                        record,
                        label,
                        next,
                    };
                }
                OpCode::ForkBy => {
                    let record = match task.record(op.s) {
                        Some(record) if innermost.fits(record) => record,
                        _ => break 'run fault::RECORD,
                    };
                    let label = match task.label(op.v) {
                        Some(label) => label,
                        None => break 'run fault::TARGET,
                    };
                    if task.places < 2 {
                        break 'run fault::PLACES;
                    }
                    *work = done + u64::from(op.count);
                    let next = ops.len() - rest.as_slice().len();
                    return Stop::Fork {
                        record,
                        label,
                        next,
                    };
                }
                OpCode::ForkNowhere => match task.record(op.s) {
                    Some(record) if innermost.fits(record) => break 'run fault::TARGET,
                    _ => break 'run fault::RECORD,
                },
                OpCode::Jump => {
                    done += u64::from(op.count);
                    op.operand.target()
                }
                OpCode::JumpBy => match task.label(op.v) {
                    Some(label) => {
                        done += u64::from(op.count);
                        self.target(label)
                    }
                    None => break 'run fault::TARGET,
                },
                OpCode::Halt => {
                    *work = done + u64::from(op.count);
                    if innermost.depth != 0 {
                        return Stop::Fault(fault::OPEN_FORK);
                    }
                    return Stop::Halt;
                }
                OpCode::Join => match task.record(op.v) {
                    Some(record) if is_at(record, innermost.depth) => {
                        done += u64::from(op.count);
                        self.target(continuation(record))
                    }
                    Some(record) if innermost.fits(record) => {
                        *work = done + u64::from(op.count);
                        return Stop::Wait;
                    }
                    _ => break 'run fault::RECORD,
                },
                OpCode::PushInteger => {
                    if task.stack.push(Held::integer(op.operand.integer())) {
                        continue;
                    }
                    break 'run fault::FULL;
                }
                OpCode::PushLabel => {
                    if task.stack.push(Held::label(op.operand.byte())) {
                        continue;
                    }
                    break 'run fault::FULL;
                }
                OpCode::Push => {
                    if task.stack.push(task.copied_integer::<CARE>(op.v)) {
                        continue;
                    }
                    break 'run fault::FULL;
                }
                OpCode::PushAny => {
                    if task.stack.push(task.copied(op.v)) {
                        continue;
                    }
                    break 'run fault::FULL;
                }
                OpCode::Pop => {
                    let held = match task.stack.pop() {
                        Some(held) => held,
                        None => break 'run fault::EMPTY,
                    };
                    if !CARE && held.kind.is_integer() {
                        task.set::<CARE>(op.r, held.value);
                        continue;
                    }
                    task.copy(op.r, &held);
                    if CARE {
                        continue;
                    }
                    *work = done;
                    return Stop::Care(Target {
                        needs: needs::CARE,
                        first: (ops.len() - rest.as_slice().len()) as u16,
                        label: 0,
                    });
                }
                OpCode::PopAny => match task.stack.pop() {
                    Some(held) => {
                        task.copy(op.r, &held);
                        continue;
                    }
                    None => break 'run fault::EMPTY,
                },
                OpCode::Fault => break 'run op.operand.byte(),
                OpCode::WordInteger => unreachable!("decoded to the word, or to a fault"),
            };
            if done >= task.beat {
                if done > self.limit {
                    *work = done;
                    return Stop::Spent;
                }
                let block = &self.code.blocks[usize::from(to.label)];
                if block.is_ready() {
                    // There is an interval, and there are places: else it would be spent by now.
                    task.beat = self.next_beat(done);
                    to = self.target(block.label);
                }
            }
            if (task.others & to.needs != 0) != CARE {
                *work = done;
                return Stop::Care(to);
            }
            rest = ops[usize::from(to.first)..].iter();
        };
        *work = done + counted(ops, rest.as_slice());
        Stop::Fault(fault)
    }

    #[inline]
    pub fn target(&self, label: u8) -> Target {
        self.code.blocks[usize::from(label)].to
    }
}

/// The instructions up to the one before `rest` since the block began, or since the fork before.
#[cold]
#[inline(never)]
fn counted(ops: &[Op], rest: &[Op]) -> u64 {
    let before = ops[..ops.len() - rest.len()].iter().rev().skip(1);
    1 + before.take_while(|op| !op.code.ends_count()).count() as u64
}

/// A comparison's value: 0 when true.
#[inline(always)]
fn less(a: i64, b: i64) -> i64 {
    i64::from(a >= b)
}

#[inline(always)]
fn equal(a: i64, b: i64) -> i64 {
    i64::from(a != b)
}
