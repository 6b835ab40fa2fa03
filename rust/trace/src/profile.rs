//! The profile: picks by block and by line, and how much of the work ran beside other work.

use crate::effect::{block_of, Effect, Pick};
use crate::order::{Order, Turns};
use crate::state::State;
use crate::subject::Subject;
use crate::text::Stop;
use crate::watch::{Observer, Watch};
use model::End;
use std::collections::BTreeMap;
use std::io;

/// Of the longest bar.
const BAR: u64 = 40;
/// Columns are at most this wide; what is longer moves its bar.
const MAX_CELL: usize = 44;

#[derive(Default)]
struct Counts {
    /// By instruction.
    picks: Vec<u64>,
    forks: u64,
    joins: u64,
    promotions: u64,
    faults: u64,
    /// Picks that were carried out while another task ran.
    beside: u64,
}

impl Observer for Counts {
    fn picked(&mut self, pick: &Pick, _: &Turns) -> io::Result<()> {
        self.picks[pick.pc] += 1;
        self.beside += u64::from(pick.before.running().count_ones() > 1);
        match &pick.effect {
            Effect::Forked { .. } => self.forks += 1,
            Effect::Promoted { .. } => self.promotions += 1,
            Effect::Ended(side) => {
                self.joins += (side.own.depth - side.now.depth) as u64;
                self.faults += u64::from(side.fault.is_some());
            }
            _ => {}
        }
        Ok(())
    }
}

/// Runs the job in this order, within this budget of picks, and says what was picked.
pub fn text(subject: &Subject, order: &Order, budget: u64) -> Result<String, Stop> {
    let mut counts = Counts {
        picks: vec![0; subject.program.instructions.len()],
        ..Counts::default()
    };
    let watch = Watch {
        player: &subject.player,
        program: &subject.program,
    };
    let first = subject.player.first().clone();
    let state = watch.until(budget, first, &mut Turns::new(order), &mut counts)?;
    let work = state.work();
    Ok(head(&state, &counts) + &blocks(subject, &counts, work) + &lines(subject, &counts, work))
}

fn head(state: &State, counts: &Counts) -> String {
    let (work, span) = (state.work(), state.slot(0).task.span);
    let ended = match state.end() {
        None => return format!("end spent, work {}\n{}", work, events(counts, work)),
        Some(End::Halt) => "halt".to_string(),
        Some(End::Fault(number)) => format!("fault {}", number),
    };
    let ratio = work as f64 / f64::from(span.max(1));
    format!(
        "end {}, work {}, span {}\nwork / span {:.2}: {} picks on the longest chain, {} beside it\n{}",
        ended,
        work,
        span,
        ratio,
        span,
        work - u64::from(span),
        events(counts, work)
    )
}

fn events(counts: &Counts, work: u64) -> String {
    format!(
        "forks {}, promotions {}, joins {}, faults {}\n\
         picks while another task ran: {}, {}\n",
        counts.forks,
        counts.promotions,
        counts.joins,
        counts.faults,
        counts.beside,
        share(counts.beside, work)
    )
}

/// A row of a table.
struct Row {
    picks: u64,
    cells: [String; 2],
}

fn blocks(subject: &Subject, counts: &Counts, work: u64) -> String {
    let mut picks = vec![0; subject.program.blocks.len()];
    for (pc, count) in counts.picks.iter().enumerate() {
        picks[block_of(&subject.program, pc)] += count;
    }
    let rows = picks.iter().enumerate().map(|(block, &picks)| Row {
        picks,
        cells: [subject.names.block(block).to_string(), String::new()],
    });
    let mut rows: Vec<Row> = rows.collect();
    // The busiest first; of equals the first in the text.
    rows.sort_by_key(|row| std::cmp::Reverse(row.picks));
    table(["block", ""], &rows, work)
}

/// In the order of the text. A line may have several instructions.
fn lines(subject: &Subject, counts: &Counts, work: u64) -> String {
    let mut lines: BTreeMap<usize, (u64, Vec<String>)> = BTreeMap::new();
    for (pc, &picks) in counts.picks.iter().enumerate() {
        let line = lines.entry(subject.line(pc)).or_default();
        line.0 += picks;
        line.1.push(subject.instruction(pc));
    }
    let rows = lines.into_iter().map(|(line, (picks, instructions))| Row {
        picks,
        cells: [line.to_string(), instructions.join("; ")],
    });
    let rows: Vec<Row> = rows.collect();
    let head = if subject.has_text() { "line" } else { "at" };
    table([head, "instructions"], &rows, work)
}

fn table(heads: [&str; 2], rows: &[Row], work: u64) -> String {
    let width = |cell: usize| {
        let widths = rows.iter().map(|row| row.cells[cell].chars().count());
        let widest = widths.max().unwrap_or_default();
        widest.max(heads[cell].len()).min(MAX_CELL)
    };
    let (first, second) = (width(0), width(1));
    let most = rows.iter().map(|row| row.picks).max().unwrap_or_default();
    let line = |[one, two]: [&str; 2], picks: &str, share: &str, bar: &str| {
        let line = format!(
            "{:first$}  {:>9}  {:>6}  {:second$}  {}",
            one,
            picks,
            share,
            two,
            bar,
            first = first,
            second = second
        );
        format!("{}\n", line.trim_end())
    };
    let mut table = String::from("\n") + &line(heads, "picks", "share", "");
    for row in rows {
        let bar = "#".repeat(bar(row.picks, most));
        let [one, two] = &row.cells;
        table += &line(
            [one, two],
            &row.picks.to_string(),
            &share(row.picks, work),
            &bar,
        );
    }
    table
}

/// What ran at all has a mark.
fn bar(picks: u64, most: u64) -> usize {
    match picks {
        0 => 0,
        _ => (picks * BAR / most).max(1) as usize,
    }
}

fn share(part: u64, whole: u64) -> String {
    format!("{:.1}%", 100.0 * part as f64 / whole.max(1) as f64)
}
