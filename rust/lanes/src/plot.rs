//! The speed of some examples on 1 to 8 lanes as an SVG: work divided by rounds, and by the most
//! rounds that the bound allows.

use crate::counts::{Counts, MAX_LANES};
use svg::{dot, line, text, Anchor, Point};

/// Examples that differ in how much runs side by side, and their colours. These and the grey stand
/// out from white and from black by 4 to 1: the picture has no ground of its own.
const SHOWN: [(&str, &str); 5] = [
    ("rates", "#2f7ed8"),
    ("sum", "#c4620a"),
    ("maximum", "#23893f"),
    ("f", "#a05bd6"),
    ("product/a-4-beat-8", "#d6456b"),
];
const GREY: &str = "#767676";

const COUNTED: &str = "stroke-width=\"2.5\"";
const BOUND: &str = "stroke-width=\"1\" stroke-dasharray=\"4 3\"";
const GRID: &str = "stroke-width=\"1\" stroke-opacity=\"0.35\"";

/// The picture's size, and the sides of the field in it.
const WIDTH: f64 = 760.0;
const HEIGHT: f64 = 440.0;
const LEFT: f64 = 64.0;
const RIGHT: f64 = 596.0;
const TOP: f64 = 48.0;
const BOTTOM: f64 = 384.0;

/// Between two lines of the grid.
const STEP: f64 = 0.25;

pub fn plot(counts: &[Counts]) -> Result<String, String> {
    let mut shown = Vec::new();
    for (name, colour) in SHOWN {
        let found = counts.iter().find(|counts| counts.name == name);
        let found = found.ok_or_else(|| format!("no example '{}' for the plot", name))?;
        shown.push((found, colour));
    }
    let field = Field::of(&shown);
    let mut svg = head() + &field.axes() + &key();
    for (counts, colour) in shown {
        svg += &field.job(counts, colour);
    }
    Ok(svg + "</svg>\n")
}

fn head() -> String {
    let title = format!("Speed of the examples on 1 to {} lanes", MAX_LANES);
    svg::head((WIDTH, HEIGHT), 13, &title)
}

/// What the two kinds of lines are.
fn key() -> String {
    let y = TOP - 24.0;
    let sample = |x, style| line(&[(x, y - 4.0), (x + 30.0, y - 4.0)], GREY, style);
    let words = |x, words| text((x + 38.0, y), Anchor::Start, GREY, words);
    let bound = LEFT + 170.0;
    [
        sample(LEFT, COUNTED),
        words(LEFT, "counted"),
        sample(bound, BOUND),
        words(bound, "at least, by the bound"),
    ]
    .concat()
}

/// From speed 1, which every job has on one lane, to the first line of the grid above all.
struct Field {
    steps: u64,
}

impl Field {
    fn of(shown: &[(&Counts, &str)]) -> Self {
        let speeds = shown.iter().flat_map(|(counts, _)| {
            let work = counts.outcome.work;
            counts.rounds.iter().map(move |&rounds| speed(work, rounds))
        });
        let fastest = speeds.fold(1.0, f64::max);
        Field {
            steps: ((fastest - 1.0) / STEP) as u64 + 1,
        }
    }

    fn point(&self, lanes: u64, speed: f64) -> Point {
        let across = (lanes - 1) as f64 / (MAX_LANES - 1) as f64;
        let up = (speed - 1.0) / (STEP * self.steps as f64);
        (LEFT + across * (RIGHT - LEFT), BOTTOM - up * (BOTTOM - TOP))
    }

    fn axes(&self) -> String {
        let mut axes = String::new();
        for step in 0..=self.steps {
            let speed = 1.0 + STEP * step as f64;
            let (left, y) = self.point(1, speed);
            let words = format!("{:.2}", speed);
            axes += &line(&[(left, y), (RIGHT, y)], GREY, GRID);
            axes += &text((left - 10.0, y + 4.0), Anchor::End, GREY, &words);
        }
        for lanes in 1..=MAX_LANES {
            let (x, y) = self.point(lanes, 1.0);
            axes += &line(&[(x, y), (x, y + 6.0)], GREY, GRID);
            axes += &text((x, y + 22.0), Anchor::Middle, GREY, &lanes.to_string());
        }
        axes + &names()
    }

    /// The bound's line lies below the counted one, and is drawn first.
    fn job(&self, counts: &Counts, colour: &str) -> String {
        let place = |lanes, rounds| self.point(lanes, speed(counts.outcome.work, rounds));
        let counted = counts
            .on_lanes()
            .map(|(lanes, rounds)| place(lanes, rounds));
        let counted: Vec<Point> = counted.collect();
        let bound = (1..=MAX_LANES).map(|lanes| place(lanes, counts.limit(lanes)));
        let bound: Vec<Point> = bound.collect();
        let dots = counted.iter().map(|&point| dot(point, colour));
        let (right, last) = counted[counted.len() - 1];
        let name = (right + 12.0, last + 4.0);
        [
            line(&bound, colour, BOUND),
            line(&counted, colour, COUNTED),
            dots.collect(),
            text(name, Anchor::Start, colour, &counts.name),
        ]
        .concat()
    }
}

/// Those of the axes.
fn names() -> String {
    let lanes = ((LEFT + RIGHT) / 2.0, HEIGHT - 12.0);
    let (x, y) = (18.0, (TOP + BOTTOM) / 2.0);
    let upright = format!("<g transform=\"rotate(-90 {0} {1})\">\n", x, y);
    text(lanes, Anchor::Middle, GREY, "lanes")
        + &upright
        + &text((x, y), Anchor::Middle, GREY, "speed: work ÷ rounds")
        + "</g>\n"
}

fn speed(work: u64, rounds: u64) -> f64 {
    work as f64 / rounds as f64
}
