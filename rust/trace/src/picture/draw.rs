//! The chart as an SVG.

use super::chart::{Bar, Chart, Kind, Link, MAX_CELLS};
use super::colours::{ink_on, Palette, FAULT, INK, WAITING};
use super::field::Field;
use super::legend;
use super::thin::thinned;
use crate::subject::Subject;
use std::collections::BTreeMap;
use svg::{dot, levels, rects, text, Anchor, Rect};

pub struct Drawing<'a> {
    pub subject: &'a Subject,
    pub chart: &'a Chart,
    /// The lines below the picture.
    pub below: [String; 2],
}

/// More faults than this are marked, but without their numbers.
const NUMBERED: usize = 16;

const FORK: &str = "stroke-width=\"1.2\"";
const JOIN: &str = "stroke-width=\"1.2\" stroke-dasharray=\"3 2\"";

impl Drawing<'_> {
    /// With at most so many rows.
    pub fn svg(&self, rows: u64) -> String {
        let chart = self.chart;
        let palette = Palette::of(chart);
        let field = Field::new(self.subject, chart, rows);
        let is_thinned = chart.steps > field.rows;
        let bars = match is_thinned {
            true => thinned(chart, field.rows),
            false => chart.bars.clone(),
        };
        let words = chart.words();
        let legend = legend::Legend {
            subject: self.subject,
            chart,
            palette: &palette,
        };
        // The number of a fault in the last slot needs room.
        let beside = if chart.marks.is_empty() { 28.0 } else { 72.0 };
        let (key, key_bottom) = legend.svg((field.right() + beside, field.top));
        let height = field.bottom().max(key_bottom) + 64.0;
        let size = (field.right() + beside + legend::WIDTH, height);
        let mut svg = svg::head(
            size,
            12,
            &format!("{}, {} downward", self.subject.file, words),
        );
        svg += "<rect width=\"100%\" height=\"100%\" fill=\"#ffffff\"/>\n";
        svg += &field.axes(chart, words);
        for bar in &bars {
            svg += &self.bar(&field, &palette, bar, is_thinned);
        }
        svg += &links(&field, &chart.forks, FORK);
        svg += &links(&field, &chart.joins, JOIN);
        svg += &self.instructions(&field, &palette);
        svg += &self.marks(&field);
        svg += &key;
        svg += &self.lines_below(height, is_thinned.then_some(field.rows));
        svg + "</svg>\n"
    }

    /// One task: rectangles of each colour, and a title that browsers show where the pointer rests.
    fn bar(&self, field: &Field, palette: &Palette, bar: &Bar, is_thinned: bool) -> String {
        let mut kinds: BTreeMap<Kind, Vec<Rect>> = BTreeMap::new();
        for segment in &bar.segments {
            let rect = field.rect(bar.slot, segment, is_thinned);
            kinds.entry(segment.kind).or_default().push(rect);
        }
        let first = bar.segments.first().map_or(0, |segment| segment.from);
        let last = bar.segments.last().map_or(0, |segment| segment.to);
        let step = |at: u64| match is_thinned {
            true => at * self.chart.steps / field.rows,
            false => at,
        };
        let mut shapes = String::new();
        for (kind, of_kind) in kinds {
            shapes += &match kind {
                Kind::Block(block) => rects(&of_kind, palette.colour(block), ""),
                Kind::Ready(block) => {
                    rects(&of_kind, palette.colour(block), "fill-opacity=\"0.25\"")
                }
                Kind::Waiting => rects(&of_kind, WAITING, ""),
            };
        }
        format!(
            "<g class=\"task\">\n<title>slot {}, {} to {}</title>\n{}</g>\n",
            bar.slot,
            step(first) + 1,
            step(last),
            shapes
        )
    }

    /// In a short job the instruction of each pick stands in its bar.
    fn instructions(&self, field: &Field, palette: &Palette) -> String {
        if !field.has_instructions || self.chart.cells.len() == MAX_CELLS {
            return String::new();
        }
        let mut texts = String::from("<g font-size=\"11\">\n");
        for cell in &self.chart.cells {
            let block = crate::effect::block_of(&self.subject.program, cell.pc);
            let ink = ink_on(palette.colour(block));
            let at = (
                field.x(cell.slot) + 6.0,
                field.y(cell.at) + field.unit / 2.0 + 4.0,
            );
            texts += &text(at, Anchor::Start, ink, &self.subject.instruction(cell.pc));
        }
        texts + "</g>\n"
    }

    fn marks(&self, field: &Field) -> String {
        let numbered = self.chart.marks.len() <= NUMBERED;
        let mut marks = String::new();
        for mark in &self.chart.marks {
            let x = field.x(mark.slot) + field.bar;
            let y = field.y(mark.at) + field.unit / 2.0;
            marks += &dot((x, y), FAULT);
            if numbered {
                let words = format!("fault {}", mark.number);
                let halo = "stroke=\"#ffffff\" stroke-width=\"3\" paint-order=\"stroke\" \
                            font-weight=\"bold\"";
                marks += &format!("<g {}>\n", halo);
                marks += &text((x + 6.0, y + 4.0), Anchor::Start, FAULT, &words);
                marks += "</g>\n";
            }
        }
        marks
    }

    /// `thinned`: the rows of a job that has more steps.
    fn lines_below(&self, height: f64, thinned: Option<u64>) -> String {
        let [result, how] = &self.below;
        let result = text((24.0, height - 32.0), Anchor::Start, INK, result);
        let mut how = format!("{}: {}", self.subject.file, how);
        if let Some(rows) = thinned {
            let steps = self.chart.steps as f64 / rows as f64;
            how += &format!(", thinned out: {:.1} {} a row", steps, self.chart.words());
        }
        format!(
            "<g font-size=\"14\" font-weight=\"bold\">\n{}</g>\n",
            result
        ) + &text((24.0, height - 14.0), Anchor::Start, INK, &how)
    }
}

/// Of lines between the same two slots some room stays between one and the next: drawn all, those of a
/// long job would be one black shape.
fn links(field: &Field, links: &[Link], style: &str) -> String {
    const ROOM: f64 = 6.0;
    let mut drawn: BTreeMap<(usize, usize), f64> = BTreeMap::new();
    let mut lines = Vec::new();
    for link in links {
        let y = field.y(link.at + 1);
        let last = drawn.entry((link.from, link.to)).or_insert(-ROOM);
        if y - *last < ROOM {
            continue;
        }
        *last = y;
        let (left, right) = (link.from.min(link.to), link.from.max(link.to));
        lines.push(((field.x(left) + field.bar, y), field.x(right)));
    }
    levels(&lines, INK, style)
}
