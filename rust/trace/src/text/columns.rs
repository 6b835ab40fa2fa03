//! The trace with one column a slot: the instruction that is picked, and marks for the other tasks.

use super::lines::{refusal, width, Shown};
use crate::effect::{Effect, Pick};
use crate::order::Turns;
use crate::state::State;
use crate::subject::Subject;
use crate::watch::Observer;
use crate::words::words;
use model::Status;
use std::io;

const MAX_CELL: usize = 26;
/// Where the columns would be wider together, they have the lines alone, and the instruction stands
/// behind them.
const MAX_WIDTH: usize = 180;
const LINE: usize = 4;

pub struct Columns<'a, 'w> {
    shown: Shown<'a, 'w>,
    places: usize,
    cell: usize,
    is_narrow: bool,
}

impl<'a, 'w> Columns<'a, 'w> {
    /// Writes the heads of the columns, and what the marks mean.
    pub fn new(shown: Shown<'a, 'w>, state: &State) -> io::Result<Self> {
        let subject = shown.subject;
        let all = 0..subject.program.instructions.len();
        let cells = all.map(|pc| whole_cell(subject, pc));
        let cell = width(cells, "slot 63", MAX_CELL);
        let places = state.places();
        let is_narrow = places * (cell + 2) > MAX_WIDTH;
        let mut columns = Columns {
            cell: if is_narrow { LINE } else { cell },
            places,
            is_narrow,
            shown,
        };
        let marks = "| runs, ~ waits, ! is faulted and waits";
        writeln!(columns.shown.out, "{}", marks)?;
        let heads = (0..columns.places).map(|slot| match is_narrow {
            true => slot.to_string(),
            false => format!("slot {}", slot),
        });
        let heads: Vec<String> = heads.collect();
        columns.write("pick", &heads, "")?;
        Ok(columns)
    }

    fn write(&mut self, pick: &str, cells: &[String], what: &str) -> io::Result<()> {
        let mut line = format!("{:>7}", pick);
        for text in cells {
            line += &format!("  {:width$}", text, width = self.cell);
        }
        let line = line + "  " + what;
        writeln!(self.shown.out, "{}", line.trim_end())
    }
}

/// Line and instruction.
fn whole_cell(subject: &Subject, pc: usize) -> String {
    format!("{} {}", subject.line(pc), subject.instruction(pc))
}

fn mark(status: Status) -> String {
    match status {
        Status::Vacant => "",
        Status::Running => "|",
        Status::Waiting => "~",
        Status::Faulted(_) | Status::Halted => "!",
    }
    .to_string()
}

impl Observer for Columns<'_, '_> {
    fn picked(&mut self, pick: &Pick, _: &Turns) -> io::Result<()> {
        let subject = self.shown.subject;
        let cells = (0..self.places).map(|slot| match slot == pick.slot {
            true if self.is_narrow => subject.line(pick.pc).to_string(),
            true => whole_cell(subject, pick.pc),
            false => mark(pick.before.slot(slot).status),
        });
        let cells: Vec<String> = cells.collect();
        let passed = self.shown.faults.note(pick);
        let mut what = match pick.effect {
            Effect::Onward(_)
            | Effect::Pushed { .. }
            | Effect::Popped { .. }
            | Effect::Entered { .. } => String::new(),
            _ => words(subject, pick, &passed),
        };
        if self.is_narrow {
            what = format!("{}  {}", subject.instruction(pick.pc), what);
        }
        self.write(&pick.number.to_string(), &cells, &what)
    }

    fn refused(&mut self, slot: usize, number: u8) -> io::Result<()> {
        let what = format!("slot {}: refused {}: {}", slot, number, refusal(number));
        self.write("-", &[], &what)
    }
}
