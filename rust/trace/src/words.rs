//! What a pick did, in words.

use crate::effect::{operand, Change, Effect, Pick, Side};
use crate::faults::Passed;
use crate::subject::Subject;
use model::{opcode, Status, Value};
use tpasm::Fault;

/// Said of a fault whose parent's side has faulted too.
pub const ASIDE: &str = "set aside, the parent's number counts";

pub fn value(subject: &Subject, value: Value) -> String {
    match value {
        Value::Int(integer) => integer.to_string(),
        Value::Label(block) => subject.names.block(block.into()).to_string(),
        Value::Record(record) => format!(
            "record of {}, depth {}",
            subject.names.block(record.continuation.into()),
            record.depth
        ),
    }
}

fn several(values: usize) -> String {
    let plural = if values == 1 { "" } else { "s" };
    format!("{} value{}", values, plural)
}

/// What a stack of this height holds.
pub fn on_the_stack(height: usize) -> String {
    match height {
        0 => "the stack is empty".to_string(),
        _ => format!("{} on the stack", several(height)),
    }
}

/// What this pick changed, and how it passed faults outward.
pub fn words(subject: &Subject, pick: &Pick, passed: &[Passed]) -> String {
    match &pick.effect {
        Effect::Onward(Some(change)) => changed(subject, change),
        Effect::Onward(None) => format!("{}on", condition(subject, pick)),
        Effect::Pushed { value: new, height } => {
            let new = value(subject, *new);
            format!("pushes {}: {}", new, on_the_stack(*height))
        }
        Effect::Popped { change, height } => {
            format!("{}; {}", changed(subject, change), on_the_stack(*height))
        }
        Effect::Entered { block } => {
            let to = subject.names.block(*block);
            format!("{}on to {}", condition(subject, pick), to)
        }
        Effect::Promoted { block, handler } => promoted(subject, pick, *block, *handler),
        Effect::Forked { child } => forked(subject, pick, *child),
        Effect::Ended(side) => ended(subject, pick, side, passed),
        Effect::Halted => "the job ends".to_string(),
    }
}

fn changed(subject: &Subject, change: &Change) -> String {
    let name = subject.names.register(change.register);
    let new = value(subject, change.new);
    if change.old == change.new {
        return format!("{} = {} as before", name, new);
    }
    format!("{} = {}, was {}", name, new, value(subject, change.old))
}

/// Why control goes where it goes.
fn condition(subject: &Subject, pick: &Pick) -> String {
    let instruction = &subject.program.instructions[pick.pc];
    let task = pick.before.slot(pick.slot).task;
    match instruction.opcode {
        opcode::IF_JUMP => {
            let tested = task.registers[usize::from(instruction.s)];
            let name = subject.names.register(instruction.s);
            format!("{} is {}: ", name, value(subject, tested))
        }
        opcode::JOIN => match operand(instruction, &task) {
            Value::Record(_) if task.depth() == 0 => "no fork is open: ".to_string(),
            _ => "no fork is open under it: ".to_string(),
        },
        _ => String::new(),
    }
}

fn promoted(subject: &Subject, pick: &Pick, block: usize, handler: usize) -> String {
    let counter = pick.before.slot(pick.slot).task.counter + 1;
    format!(
        "{}promoted: the beat, counter {}, at {}: on to its handler {}",
        condition(subject, pick),
        counter,
        subject.names.block(block),
        subject.names.block(handler)
    )
}

fn forked(subject: &Subject, pick: &Pick, child: usize) -> String {
    let task = pick.after.slot(child).task;
    let each = match task.places {
        1 => "a place".to_string(),
        places => format!("{} places", places),
    };
    let block = subject.block(task.pc.into());
    format!(
        "forks: the child in slot {} at {}, {} each{}",
        child,
        block,
        each,
        kept(pick)
    )
}

/// What a parent has on its stack, and its child has not.
fn kept(pick: &Pick) -> String {
    match pick.before.slot(pick.slot).task.stack.height() {
        0 => String::new(),
        height => {
            let values = several(height);
            format!("; the child's stack is empty, the parent's has {}", values)
        }
    }
}

fn ended(subject: &Subject, pick: &Pick, side: &Side, passed: &[Passed]) -> String {
    let mut said = match side.fault {
        Some(number) => Fault(number).to_string(),
        None => String::new(),
    };
    let mut say = |words: String| {
        said += if said.is_empty() { "" } else { "; " };
        said += &words;
    };
    if side.now == side.own && side.own.depth > 0 {
        let other = pick.before.other_side(side.own).slot;
        say(format!("waits for slot {}", other));
    }
    if pick.after.slot(side.now.slot).status == Status::Running {
        say(joined(subject, pick, side));
    }
    for join in passed {
        say(outward(join));
    }
    if pick.after.end().is_some() {
        say("the job ends".to_string());
    }
    said
}

/// Both sides ended with a join: the pairs, and where the joined task goes on.
fn joined(subject: &Subject, pick: &Pick, side: &Side) -> String {
    let other = pick.before.other_side(side.own).slot;
    let task = pick.after.slot(side.now.slot).task;
    let old = pick.before.slot(side.now.slot).task;
    let forks = old.forks();
    let continuation = forks[forks.len() - 1].continuation;
    let pairs = subject.program.blocks[usize::from(continuation)].register_pairs();
    let pairs: String = pairs
        .map(|(_, target)| {
            let name = subject.names.register(target as u8);
            format!(", {} = {}", name, value(subject, task.registers[target]))
        })
        .collect();
    let block = subject.block(task.pc.into());
    let at = format!("one task in slot {}, at {}", side.now.slot, block);
    let dropped = dropped(pick, side.own.slot.max(other));
    format!("joins slot {}: {}{}{}", other, at, pairs, dropped)
}

/// What a child has left on its stack, which the joined task has not.
fn dropped(pick: &Pick, child: usize) -> String {
    match pick.before.slot(child).task.stack.height() {
        0 => String::new(),
        height => format!("; dropped: {} on the child's stack", several(height)),
    }
}

/// A join of two sides of which one or both faulted.
fn outward(passed: &Passed) -> String {
    let other = passed.other;
    let has = match passed.numbers {
        [Some(_), Some(_)] if passed.slot < other => {
            format!("slot {} faulted too: {}", other, ASIDE)
        }
        [Some(_), Some(number)] => format!("{} (slot {}, {})", ASIDE, other, number),
        [Some(_), None] => format!("slot {} had waited", other),
        [None, _] => format!("slot {} had faulted", other),
    };
    let (slot, number) = (passed.slot, passed.number);
    format!("{}; slot {} is faulted with {}", has, slot, number)
}
