//! What a pick did, read off the states before and after it.

use crate::player::Player;
use crate::state::{Region, State};
use model::{opcode, Instruction, Program, Status, Task, Value};
use tpasm::notation::{ends_block, writes_register, LABEL, REGISTER};

/// A pick that was carried out.
pub struct Pick<'a> {
    /// Counted from 1: the work after it.
    pub number: u64,
    pub slot: usize,
    /// The number of the instruction.
    pub pc: usize,
    pub before: &'a State,
    pub after: &'a State,
    pub effect: Effect,
}

#[derive(Clone, Debug, PartialEq, Eq)]
pub enum Effect {
    /// On to the next instruction, with a register written or with none.
    Onward(Option<Change>),
    /// The same, with a value more on the stack, which then has so many.
    Pushed {
        value: Value,
        height: usize,
    },
    /// The same, with the stack's last value in a register; so many are left.
    Popped {
        change: Change,
        height: usize,
    },
    /// Into a block.
    Entered {
        block: usize,
    },
    /// The beat: into the handler of the block that was to be entered.
    Promoted {
        block: usize,
        handler: usize,
    },
    /// The child sits in this slot.
    Forked {
        child: usize,
    },
    Ended(Side),
    /// The job has ended.
    Halted,
}

#[derive(Clone, Copy, Debug, PartialEq, Eq)]
pub struct Change {
    pub register: u8,
    pub old: Value,
    pub new: Value,
}

/// An ended side of a fork, or of the job.
#[derive(Clone, Debug, PartialEq, Eq)]
pub struct Side {
    /// None: it ended with a join.
    pub fault: Option<u8>,
    /// The region of the task that has ended.
    pub own: Region,
    /// The region of the task that is there now: the same, or further out once sides were joined.
    pub now: Region,
}

impl<'a> Pick<'a> {
    pub fn new(player: &Player, program: &Program, states: [&'a State; 2], slot: usize) -> Self {
        let [before, after] = states;
        let pc = usize::from(before.slot(slot).task.pc);
        Pick {
            number: after.work(),
            slot,
            pc,
            before,
            after,
            effect: effect(player, program, states, slot),
        }
    }
}

fn effect(player: &Player, program: &Program, [before, after]: [&State; 2], slot: usize) -> Effect {
    let (old, new) = (before.slot(slot), after.slot(slot));
    let instruction = &program.instructions[usize::from(old.task.pc)];
    if new.status == Status::Halted {
        return Effect::Halted;
    }
    let deeper = new.task.depth() as isize - old.task.depth() as isize;
    if new.status != Status::Running || deeper < 0 {
        return Effect::Ended(side(player, before, after, slot));
    }
    if deeper > 0 {
        return Effect::Forked {
            child: slot + usize::from(new.task.places),
        };
    }
    if !ends_block(instruction.opcode) && new.task.pc == old.task.pc + 1 {
        return onward(instruction, &old.task, &new.task);
    }
    let block = block_of(program, new.task.pc.into());
    // Each other instruction leaves the counter above 0.
    match target(instruction, &old.task) {
        Some(target) if new.task.counter == 0 => Effect::Promoted {
            block: target,
            handler: block,
        },
        _ => Effect::Entered { block },
    }
}

/// What an instruction writes that is followed by the next.
fn onward(instruction: &Instruction, old: &Task, new: &Task) -> Effect {
    let height = new.stack.height();
    match (instruction.opcode, change(instruction, old, new)) {
        (opcode::PUSH, _) => Effect::Pushed {
            value: new.stack.values()[height - 1],
            height,
        },
        (opcode::POP, Some(change)) => Effect::Popped { change, height },
        (_, change) => Effect::Onward(change),
    }
}

/// The register that an instruction writes.
fn change(instruction: &Instruction, old: &Task, new: &Task) -> Option<Change> {
    let register = usize::from(instruction.r);
    writes_register(instruction.opcode).then(|| Change {
        register: instruction.r,
        old: old.registers[register],
        new: new.registers[register],
    })
}

/// The block that a jump was to enter.
fn target(instruction: &Instruction, task: &Task) -> Option<usize> {
    if instruction.opcode == opcode::JOIN {
        return None;
    }
    match operand(instruction, task) {
        Value::Label(block) => Some(block.into()),
        _ => None,
    }
}

/// The value of an instruction's operand.
pub fn operand(instruction: &Instruction, task: &Task) -> Value {
    match instruction.kind {
        REGISTER => task.registers[instruction.operand as usize],
        LABEL => Value::Label(instruction.operand as u8),
        _ => Value::Int(instruction.operand as i64),
    }
}

/// The block that has this instruction.
pub fn block_of(program: &Program, pc: usize) -> usize {
    let begun = |block: &model::Block| usize::from(block.first) <= pc;
    program.blocks.partition_point(begun) - 1
}

/// Where two sides were joined at once and the joined task is faulted, the picked task's own end is in
/// no state of this order. It is in that of the order which leaves the other side running.
fn side(player: &Player, before: &State, after: &State, slot: usize) -> Side {
    let depth = before.slot(slot).task.depth();
    let own = before.region(slot, depth);
    let now = after.covering(slot, depth);
    let status = if now == own {
        after.slot(slot).status
    } else if after.slot(now.slot).status == Status::Running {
        Status::Waiting
    } else {
        let mut other = before.with_running(before.other_side(own).slot);
        let picked = player.pick(&mut other, slot);
        picked.expect("the state keeps its shape");
        other.slot(slot).status
    };
    let fault = match status {
        Status::Faulted(number) => Some(number),
        _ => None,
    };
    Side { fault, own, now }
}
