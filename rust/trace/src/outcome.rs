//! What is said at a trace's end: the run program's result, what became of the faults, and where each
//! task stands.

use crate::faults::{Fault, Faults};
use crate::state::State;
use crate::subject::Subject;
use crate::words::{on_the_stack, ASIDE};
use model::job::{text_of, Report};
use model::task::ZEROS;
use model::{End, Status};

/// A job as the order left it.
pub struct Outcome<'a> {
    pub subject: &'a Subject,
    pub state: &'a State,
    pub faults: &'a Faults,
    /// Why no more was picked, where the job has not ended.
    pub stopped: &'a str,
}

impl Outcome<'_> {
    /// The run program's text with the names of registers, and then what there is to say of a job that
    /// did not halt.
    pub fn text(&self) -> String {
        let story = match self.state.end() {
            Some(End::Halt) => String::new(),
            Some(End::Fault(_)) => self.faults_text(),
            None => self.standing(),
        };
        self.result() + &story
    }

    /// What the run program prints.
    pub fn result(&self) -> String {
        let last = self.state.slot(0).task;
        let end = self.state.end();
        let report = Report {
            end,
            picks: self.state.work(),
            work: self.state.work() as u32,
            span: end.map_or(0, |_| last.span),
            registers: end.map_or(ZEROS, |_| last.registers),
        };
        self.named(&text_of(&Ok(report)))
    }

    /// The text's names stand beside their registers.
    fn named(&self, text: &str) -> String {
        let name = |line: &str| {
            let number = line.strip_prefix('r')?.split(' ').next()?.parse().ok()?;
            self.subject.registers.name(number)
        };
        let widths = text.lines().filter(|line| name(line).is_some());
        let width = widths.map(str::len).max().unwrap_or_default();
        let beside = |line| match name(line) {
            Some(name) => format!("{:width$}  {}\n", line, name, width = width),
            None => format!("{}\n", line),
        };
        text.lines().map(beside).collect()
    }

    /// The fault that the job ended with, and those that were set aside.
    fn faults_text(&self) -> String {
        let mut text = String::new();
        if let Some(fault) = self.faults.carried(0) {
            text += &self.fault(fault, "");
            text += &way(fault);
        }
        let mut aside: Vec<&Fault> = self.faults.aside.iter().collect();
        aside.sort_by_key(|fault| fault.pick);
        for fault in aside {
            text += &self.fault(fault, ASIDE);
        }
        text
    }

    /// Where a fault is, in the manner of the assembler's messages.
    fn fault(&self, fault: &Fault, said: &str) -> String {
        let subject = self.subject;
        let said = match said {
            "" => String::new(),
            said => format!(" ({})", said),
        };
        format!(
            "\n{}: {}{}\n{}      pick {}, slot {}, block {}\n",
            subject.place(fault.pc),
            tpasm::Fault(fault.number),
            said,
            subject.excerpt(fault.pc),
            fault.pick,
            fault.slot,
            subject.block(fault.pc)
        )
    }

    /// A line for each task.
    fn standing(&self) -> String {
        let lines = self.state.live().map(|(number, slot)| {
            let task = &slot.task;
            let stands = match slot.status {
                Status::Running => self.runs(number, task.pc.into()),
                status => self.waits(number, status, task.depth()),
            };
            stands + &held(task.stack.height()) + "\n"
        });
        format!("\n{}:\n", self.stopped) + &lines.collect::<String>()
    }

    fn runs(&self, slot: usize, pc: usize) -> String {
        let subject = self.subject;
        format!(
            "slot {} stands at {}: block {}, {}",
            slot,
            subject.place(pc),
            subject.block(pc),
            subject.instruction(pc)
        )
    }

    fn waits(&self, slot: usize, status: Status, depth: usize) -> String {
        let region = self.state.region(slot, depth);
        let other = self.state.other_side(region).slot;
        let faulted = match (status, self.faults.carried(slot)) {
            (Status::Faulted(number), Some(fault)) => {
                let place = self.subject.place(fault.pc);
                format!("is faulted with {}, from {}, and ", number, place)
            }
            _ => String::new(),
        };
        format!("slot {} {}waits for slot {}", slot, faulted, other)
    }
}

/// What a task has on its stack, where there is something.
fn held(height: usize) -> String {
    match height {
        0 => String::new(),
        _ => format!("; {}", on_the_stack(height)),
    }
}

/// The slots that a fault passed through outward.
fn way(fault: &Fault) -> String {
    let mut slots = vec![format!("slot {}", fault.slot)];
    for (slot, pick) in &fault.outward {
        slots.push(format!("joined to slot {} at pick {}", slot, pick));
    }
    match slots.len() {
        1 => "      it ended the job there\n".to_string(),
        _ => format!("      outward: {}\n", slots.join(", ")),
    }
}
