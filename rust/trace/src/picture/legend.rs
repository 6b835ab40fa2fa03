//! What colours and lines mean.

use super::chart::Chart;
use super::colours::{Palette, FAULT, INK, WAITING};
use crate::subject::Subject;
use svg::{dot, line, rects, text, Anchor, Point, Rect};

/// The room to the right of the field.
pub const WIDTH: f64 = 230.0;
const LINE: f64 = 20.0;
/// Longer names are cut.
const MAX_NAME: usize = 22;

pub struct Legend<'a> {
    pub subject: &'a Subject,
    pub chart: &'a Chart,
    pub palette: &'a Palette,
}

impl Legend<'_> {
    /// From this place downward, and where it ends.
    pub fn svg(&self, (x, top): Point) -> (String, f64) {
        let mut y = top - LINE;
        let mut svg = String::new();
        let mut add = |shape: &dyn Fn(Point) -> String, words: &str| {
            svg += &shape((x, y));
            svg += &text((x + 24.0, y + 11.0), Anchor::Start, INK, words);
            y += LINE;
        };
        add(&|_| String::new(), "block, picks");
        let (named, others) = self.palette.named();
        for block in named {
            let words = format!("{}, {}", self.name(*block), self.chart.picks[*block]);
            add(&|at| swatch(at, self.palette.colour(*block), ""), &words);
        }
        if others > 0 {
            let words = format!("{} other blocks", others);
            add(&|at| swatch(at, self.palette.others(), ""), &words);
        }
        if self.chart.in_rounds {
            let pale = |at| {
                swatch(
                    at,
                    self.palette.colour(self.busiest()),
                    "fill-opacity=\"0.25\"",
                )
            };
            add(&pale, "runs, but no lane is left");
        }
        add(&|at| swatch(at, WAITING, ""), "waits for the other side");
        add(&|at| sample(at, ""), "fork");
        add(&|at| sample(at, "stroke-dasharray=\"3 2\""), "join");
        if !self.chart.marks.is_empty() {
            add(&|(x, y)| dot((x + 7.0, y + 7.0), FAULT), "fault");
        }
        (svg, y)
    }

    fn busiest(&self) -> usize {
        self.palette.blocks.first().copied().unwrap_or_default()
    }

    fn name(&self, block: usize) -> String {
        let name = self.subject.names.block(block);
        match name.chars().count() > MAX_NAME {
            false => name.to_string(),
            true => name
                .chars()
                .take(MAX_NAME - 2)
                .chain("..".chars())
                .collect(),
        }
    }
}

fn swatch(at: Point, colour: &str, style: &str) -> String {
    let rect = Rect {
        at,
        width: 14.0,
        height: 14.0,
    };
    rects(&[rect], colour, style)
}

fn sample((x, y): Point, style: &str) -> String {
    let style = format!("stroke-width=\"1.2\" {}", style);
    line(&[(x - 2.0, y + 7.0), (x + 16.0, y + 7.0)], INK, &style)
}
