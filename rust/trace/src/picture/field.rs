//! Where steps and slots are in the picture, and the axes.

use super::chart::{Chart, Segment};
use super::colours::{GRID, INK};
use crate::subject::Subject;
use svg::{line, text, Anchor, Rect};

/// The most that the field is high, and what a step of a short job is.
const HEIGHT: f64 = 720.0;
const MAX_UNIT: f64 = 22.0;
/// A step is at least so high where instructions are written.
const TEXT_UNIT: f64 = 13.0;
/// Of a letter of an instruction, on the large side.
const LETTER: f64 = 6.3;
/// All columns together are at most so wide.
const WIDTH: f64 = 960.0;

pub struct Field {
    pub left: f64,
    pub top: f64,
    /// Of a step, or of a row where the job is thinned out.
    pub unit: f64,
    pub rows: u64,
    /// Of a slot, and of the bar in it.
    pub column: f64,
    pub bar: f64,
    pub places: usize,
    steps: u64,
    pub has_instructions: bool,
}

impl Field {
    pub fn new(subject: &Subject, chart: &Chart, rows: u64) -> Self {
        let steps = chart.steps.max(1);
        let rows = rows.min(steps);
        let unit = (HEIGHT / rows as f64).min(MAX_UNIT);
        let cells = chart.cells.iter();
        let lengths = cells.map(|cell| subject.instruction(cell.pc).chars().count());
        let words = lengths.max().unwrap_or_default() as f64 * LETTER + 34.0;
        let room = WIDTH / chart.places as f64;
        let has_instructions = steps == rows && unit >= TEXT_UNIT && words <= room;
        let column = match has_instructions {
            true => words.max(72.0),
            false => room.min(96.0),
        };
        Field {
            left: 72.0,
            top: 66.0,
            unit,
            rows,
            column,
            bar: if has_instructions {
                column - 22.0
            } else {
                column * 0.7
            },
            places: chart.places,
            steps,
            has_instructions,
        }
    }

    /// The left side of a slot's bar.
    pub fn x(&self, slot: usize) -> f64 {
        self.left + self.column * slot as f64
    }

    /// Where a step begins.
    pub fn y(&self, step: u64) -> f64 {
        self.row((step as f64) * (self.rows as f64) / (self.steps as f64))
    }

    fn row(&self, row: f64) -> f64 {
        self.top + self.unit * row
    }

    pub fn right(&self) -> f64 {
        self.x(self.places)
    }

    pub fn bottom(&self) -> f64 {
        self.row(self.rows as f64)
    }

    /// A segment's place; its times are rows where the job is thinned out, and else steps.
    pub fn rect(&self, slot: usize, segment: &Segment, in_rows: bool) -> Rect {
        let y = |at: u64| match in_rows {
            true => self.row(at as f64),
            false => self.y(at),
        };
        Rect {
            at: (self.x(slot), y(segment.from)),
            width: self.bar,
            height: y(segment.to) - y(segment.from),
        }
    }

    pub fn axes(&self, chart: &Chart, words: &str) -> String {
        let mut axes = text((self.left - 10.0, self.top - 10.0), Anchor::End, INK, words);
        axes += &text((self.left, self.top - 34.0), Anchor::Start, INK, "slots");
        let every = slots_between_heads(self.column);
        for slot in (0..self.places).step_by(every) {
            let at = (self.x(slot) + self.bar / 2.0, self.top - 10.0);
            axes += &text(at, Anchor::Middle, INK, &slot.to_string());
        }
        let every = steps_between_lines(chart.steps, self.unit * self.rows as f64);
        for step in (0..=chart.steps).step_by(every as usize) {
            axes += &self.tick(step, step == 0);
        }
        axes
    }

    /// A line behind a step, with its number; a step that instructions are written in has its number
    /// beside it.
    fn tick(&self, step: u64, is_first: bool) -> String {
        let y = self.y(step);
        let grid = line(
            &[(self.left - 6.0, y), (self.right(), y)],
            GRID,
            "stroke-width=\"1\"",
        );
        if is_first {
            return grid;
        }
        let up = if self.has_instructions {
            self.unit / 2.0 - 4.0
        } else {
            -4.0
        };
        let at = (self.left - 10.0, y - up);
        grid + &text(at, Anchor::End, INK, &step.to_string())
    }
}

fn slots_between_heads(column: f64) -> usize {
    match column {
        narrow if narrow < 11.0 => 8,
        narrow if narrow < 20.0 => 4,
        _ => 1,
    }
}

/// 1, 2 or 5 times a power of ten, so that the numbers have room.
fn steps_between_lines(steps: u64, height: f64) -> u64 {
    const ROOM: f64 = 13.0;
    const WIDE: f64 = 38.0;
    let room = if height / steps.max(1) as f64 >= ROOM {
        ROOM
    } else {
        WIDE
    };
    let least = steps as f64 * room / height;
    let mut power = 1;
    loop {
        for times in [1, 2, 5] {
            if (times * power) as f64 >= least {
                return times * power;
            }
        }
        power *= 10;
    }
}
