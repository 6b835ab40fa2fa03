//! A colour for each block that ran, the busiest first.

use super::chart::Chart;

/// Apart from each other, from the grey of waiting and from the red of faults.
const COLOURS: [&str; 11] = [
    "#4e79a7", "#f28e2b", "#59a14f", "#edc948", "#b07aa1", "#76b7b2", "#9c755f", "#ff9da7",
    "#2f4b7c", "#a0c95a", "#7fc4f0",
];
/// Of the blocks that there is no colour left for.
const OTHERS: &str = "#5b5550";

pub const WAITING: &str = "#d9d9d9";
pub const FAULT: &str = "#d60f1d";
pub const INK: &str = "#333333";
pub const GRID: &str = "#e6e6e6";

pub struct Palette {
    /// The blocks that ran, the busiest first.
    pub blocks: Vec<usize>,
}

impl Palette {
    pub fn of(chart: &Chart) -> Self {
        let mut blocks: Vec<usize> = (0..chart.picks.len()).collect();
        blocks.retain(|block| chart.picks[*block] > 0);
        blocks.sort_by_key(|block| (std::cmp::Reverse(chart.picks[*block]), *block));
        Palette { blocks }
    }

    /// A child that was never picked is in a block that did not run.
    pub fn colour(&self, block: usize) -> &'static str {
        let place = self.blocks.iter().position(|known| *known == block);
        place
            .and_then(|place| COLOURS.get(place))
            .unwrap_or(&OTHERS)
    }

    /// The blocks that have a colour of their own, and how many have not.
    pub fn named(&self) -> (&[usize], usize) {
        let own = self.blocks.len().min(COLOURS.len());
        (&self.blocks[..own], self.blocks.len() - own)
    }

    pub fn others(&self) -> &'static str {
        OTHERS
    }
}

/// Ink that is read on this colour.
pub fn ink_on(colour: &str) -> &'static str {
    let part = |at: usize| u32::from_str_radix(&colour[at..at + 2], 16).unwrap_or_default();
    let light = 299 * part(1) + 587 * part(3) + 114 * part(5);
    if light > 140_000 {
        "#111111"
    } else {
        "#ffffff"
    }
}
