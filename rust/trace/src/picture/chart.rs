//! The tasks of a job over time, as they are picked.

use crate::effect::{block_of, Effect, Pick, Side};
use crate::order::{Order, Turns};
use crate::subject::Subject;
use crate::watch::Observer;
use model::{Status, MAX_PLACES};
use std::io;

/// What a task does.
#[derive(Clone, Copy, Debug, PartialEq, Eq, PartialOrd, Ord)]
pub enum Kind {
    /// It is in this block.
    Block(usize),
    /// It is there, and no lane takes it.
    Ready(usize),
    /// It has ended its side, with a join or a fault.
    Waiting,
}

/// Steps in which a task does one thing: from one, counted from 0, up to another and without it.
#[derive(Clone, Copy, Debug, PartialEq, Eq)]
pub struct Segment {
    pub from: u64,
    pub to: u64,
    pub kind: Kind,
}

/// A task. Joined with its child it goes on as the same one.
#[derive(Clone, Debug)]
pub struct Bar {
    pub slot: usize,
    pub segments: Vec<Segment>,
}

/// A fork, from the parent to the child, or a join, from the child to the parent, behind a step.
#[derive(Clone, Copy, Debug)]
pub struct Link {
    pub at: u64,
    pub from: usize,
    pub to: usize,
}

/// A fault met in a step.
#[derive(Clone, Copy, Debug)]
pub struct Mark {
    pub at: u64,
    pub slot: usize,
    pub number: u8,
}

/// A pick of a short job.
#[derive(Clone, Copy, Debug)]
pub struct Cell {
    pub at: u64,
    pub slot: usize,
    pub pc: usize,
}

/// A step is a pick or a round.
#[derive(Clone, Debug, Default)]
pub struct Chart {
    pub places: usize,
    pub in_rounds: bool,
    pub steps: u64,
    pub bars: Vec<Bar>,
    pub forks: Vec<Link>,
    pub joins: Vec<Link>,
    pub marks: Vec<Mark>,
    /// The first picks, one by one.
    pub cells: Vec<Cell>,
    /// Picks of each block.
    pub picks: Vec<u64>,
}

impl Chart {
    /// What its steps are.
    pub fn words(&self) -> &'static str {
        match self.in_rounds {
            true => "rounds",
            false => "picks",
        }
    }
}

/// More picks than this are not shown one by one.
pub const MAX_CELLS: usize = 200;

pub struct Recorder<'a> {
    subject: &'a Subject,
    chart: Chart,
    /// The bar that is open in each slot.
    open: [Option<usize>; MAX_PLACES as usize],
}

impl<'a> Recorder<'a> {
    pub fn new(subject: &'a Subject, order: &Order) -> Self {
        let chart = Chart {
            places: subject.player.first().places(),
            in_rounds: matches!(order, Order::Lanes(_)),
            picks: vec![0; subject.program.blocks.len()],
            ..Chart::default()
        };
        let mut recorder = Recorder {
            subject,
            chart,
            open: [None; MAX_PLACES as usize],
        };
        recorder.begin(0, 0, Kind::Block(0));
        recorder
    }

    pub fn finished(mut self) -> Chart {
        let steps = self.chart.steps;
        for slot in 0..self.open.len() {
            self.end(slot, steps);
        }
        self.chart
    }

    fn begin(&mut self, slot: usize, from: u64, kind: Kind) {
        let segments = vec![Segment {
            from,
            to: from,
            kind,
        }];
        self.open[slot] = Some(self.chart.bars.len());
        self.chart.bars.push(Bar { slot, segments });
    }

    /// From this step on the slot's task does this.
    fn set(&mut self, slot: usize, from: u64, kind: Kind) {
        let bar = match self.open[slot] {
            Some(bar) => &mut self.chart.bars[bar],
            None => return,
        };
        let last = bar.segments.len() - 1;
        let last = &mut bar.segments[last];
        if last.kind == kind {
            return;
        }
        if last.from == from {
            last.kind = kind;
            return;
        }
        last.to = from;
        bar.segments.push(Segment {
            from,
            to: from,
            kind,
        });
    }

    fn end(&mut self, slot: usize, to: u64) {
        if let Some(bar) = self.open[slot].take() {
            let segments = &mut self.chart.bars[bar].segments;
            let last = segments.len() - 1;
            segments[last].to = to;
        }
    }

    /// The tasks that run when a round begins, and that it does not take.
    fn passed_over(&mut self, pick: &Pick, turns: &Turns, step: u64) {
        let taken = turns.row() | 1 << pick.slot;
        let rest = pick.before.running() & !taken;
        for slot in (0..self.chart.places).filter(|slot| rest & (1 << slot) != 0) {
            let pc = pick.before.slot(slot).task.pc.into();
            self.set(slot, step, Kind::Ready(block_of(&self.subject.program, pc)));
        }
    }

    fn forked(&mut self, pick: &Pick, child: usize, step: u64) {
        let target = pick.after.slot(child).task.pc.into();
        let target = block_of(&self.subject.program, target);
        self.begin(child, step + 1, Kind::Block(target));
        self.chart.forks.push(Link {
            at: step,
            from: pick.slot,
            to: child,
        });
    }

    fn side_ended(&mut self, pick: &Pick, side: &Side, step: u64) {
        if let Some(number) = side.fault {
            self.chart.marks.push(Mark {
                at: step,
                slot: pick.slot,
                number,
            });
        }
        for depth in (side.now.depth + 1..=side.own.depth).rev() {
            let region = pick.before.region(pick.slot, depth);
            let other = pick.before.other_side(region).slot;
            let (parent, child) = (region.slot.min(other), region.slot.max(other));
            self.end(child, step + 1);
            self.chart.joins.push(Link {
                at: step,
                from: child,
                to: parent,
            });
        }
        let now = pick.after.slot(side.now.slot);
        let kind = match now.status {
            Status::Running => Kind::Block(block_of(&self.subject.program, now.task.pc.into())),
            _ => Kind::Waiting,
        };
        self.set(side.now.slot, step + 1, kind);
    }
}

impl Observer for Recorder<'_> {
    fn picked(&mut self, pick: &Pick, turns: &Turns) -> io::Result<()> {
        let step = match self.chart.in_rounds {
            true => turns.rounds() - 1,
            false => pick.number - 1,
        };
        if self.chart.in_rounds && step >= self.chart.steps {
            self.passed_over(pick, turns, step);
        }
        self.chart.steps = step + 1;
        let (slot, pc) = (pick.slot, pick.pc);
        let block = block_of(&self.subject.program, pc);
        self.chart.picks[block] += 1;
        if self.chart.cells.len() < MAX_CELLS {
            self.chart.cells.push(Cell { at: step, slot, pc });
        }
        self.set(slot, step, Kind::Block(block));
        match &pick.effect {
            Effect::Forked { child } => self.forked(pick, *child, step),
            Effect::Ended(side) => self.side_ended(pick, side, step),
            _ => {}
        }
        Ok(())
    }
}
