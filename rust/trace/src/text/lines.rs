//! The trace as lines: pick, slot, line, block, instruction, and what it changed.

use crate::effect::Pick;
use crate::faults::Faults;
use crate::order::Turns;
use crate::subject::Subject;
use crate::watch::Observer;
use crate::words::words;
use std::io::{self, Write};

/// Columns are at most this wide; what is longer moves the rest of its line.
const MAX_BLOCK: usize = 20;
const MAX_INSTRUCTION: usize = 30;

/// What both forms of a trace have: the job, its faults so far, and where the text goes.
pub struct Shown<'a, 'w> {
    pub subject: &'a Subject,
    pub faults: &'a mut Faults,
    pub out: &'a mut (dyn Write + 'w),
}

pub struct Lines<'a, 'w> {
    shown: Shown<'a, 'w>,
    block: usize,
    instruction: usize,
}

/// The longest of these texts, as far as `limit`.
pub fn width(texts: impl Iterator<Item = String>, least: &str, limit: usize) -> usize {
    let widths = texts.map(|text| text.chars().count());
    widths.max().unwrap_or_default().max(least.len()).min(limit)
}

impl<'a, 'w> Lines<'a, 'w> {
    /// Writes the heads of the columns.
    pub fn new(shown: Shown<'a, 'w>) -> io::Result<Self> {
        let subject = shown.subject;
        let all = || 0..subject.program.instructions.len();
        let blocks = all().map(|pc| subject.block(pc).to_string());
        let instructions = all().map(|pc| subject.instruction(pc));
        let mut lines = Lines {
            block: width(blocks, "block", MAX_BLOCK),
            instruction: width(instructions, "instruction", MAX_INSTRUCTION),
            shown,
        };
        let line = if subject.has_text() { "line" } else { "at" };
        lines.write(
            ["pick", "slot", line, "block", "instruction"],
            "what it changed",
        )?;
        Ok(lines)
    }

    fn write(&mut self, cells: [&str; 5], what: &str) -> io::Result<()> {
        let [pick, slot, line, block, instruction] = cells;
        let text = format!(
            "{:>7} {:>4} {:>4}  {:blocks$}  {:instructions$}  {}",
            pick,
            slot,
            line,
            block,
            instruction,
            what,
            blocks = self.block,
            instructions = self.instruction
        );
        writeln!(self.shown.out, "{}", text.trim_end())
    }
}

impl Observer for Lines<'_, '_> {
    fn picked(&mut self, pick: &Pick, _: &Turns) -> io::Result<()> {
        let subject = self.shown.subject;
        let passed = self.shown.faults.note(pick);
        let what = words(subject, pick, &passed);
        let cells = [
            &pick.number.to_string(),
            &pick.slot.to_string(),
            &subject.line(pick.pc).to_string(),
            subject.block(pick.pc),
            &*subject.instruction(pick.pc),
        ];
        self.write(cells, &what)
    }

    fn refused(&mut self, slot: usize, number: u8) -> io::Result<()> {
        let what = format!("refused {}: {}", number, refusal(number));
        self.write(["-", &slot.to_string(), "", "", ""], &what)
    }
}

/// Why a pick of a job that has not ended is refused.
pub fn refusal(number: u8) -> &'static str {
    match number {
        model::question::SLOT => "there is no such slot",
        _ => "no task runs there",
    }
}
