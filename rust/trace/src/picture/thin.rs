//! Long jobs, thinned out: of the steps that come to one row of the picture a bar shows what it did
//! longest.

use super::chart::{Bar, Chart, Kind, Segment};

/// More bars than this are drawn slot by slot, and no longer one by one.
const MAX_BARS: usize = 3_000;

/// The bars with their times in rows, of which there are `rows`.
pub fn thinned(chart: &Chart, rows: u64) -> Vec<Bar> {
    let whole = |bars: &[Bar]| -> Vec<Bar> {
        bars.iter()
            .map(|bar| Bar {
                slot: bar.slot,
                segments: in_rows(&bar.segments, chart.steps, rows),
            })
            .collect()
    };
    if chart.bars.len() <= MAX_BARS {
        return whole(&chart.bars);
    }
    whole(&by_slot(chart))
}

/// One bar for each slot, of all its tasks.
fn by_slot(chart: &Chart) -> Vec<Bar> {
    let bars = (0..chart.places).map(|slot| {
        let of_slot = chart.bars.iter().filter(|bar| bar.slot == slot);
        let segments = of_slot.flat_map(|bar| bar.segments.iter().copied());
        Bar {
            slot,
            segments: segments.collect(),
        }
    });
    bars.filter(|bar| !bar.segments.is_empty()).collect()
}

/// What a row has of each kind, in steps times rows.
struct Shares {
    row: u64,
    kinds: Vec<(Kind, u64)>,
}

impl Shares {
    fn add(&mut self, kind: Kind, share: u64) {
        match self.kinds.iter_mut().find(|(known, _)| *known == kind) {
            Some((_, sum)) => *sum += share,
            None => self.kinds.push((kind, share)),
        }
    }

    /// The row as a segment of what there is most of, joined to the last one where it is the same.
    fn push_to(&mut self, segments: &mut Vec<Segment>) {
        let most = self.kinds.drain(..).max_by_key(|(_, share)| *share);
        let (kind, row) = match most {
            Some((kind, _)) => (kind, self.row),
            None => return,
        };
        match segments.last_mut() {
            Some(last) if last.kind == kind && last.to == row => last.to = row + 1,
            _ => segments.push(Segment {
                from: row,
                to: row + 1,
                kind,
            }),
        }
    }
}

/// Step t begins at row t · rows / steps.
fn in_rows(segments: &[Segment], steps: u64, rows: u64) -> Vec<Segment> {
    let mut in_rows = Vec::new();
    let mut shares = Shares {
        row: 0,
        kinds: Vec::new(),
    };
    for segment in segments {
        let (mut at, end) = (segment.from * rows, segment.to * rows);
        while at < end {
            let row = at / steps;
            if row != shares.row {
                shares.push_to(&mut in_rows);
                shares.row = row;
            }
            let next = ((row + 1) * steps).min(end);
            shares.add(segment.kind, next - at);
            at = next;
        }
    }
    shares.push_to(&mut in_rows);
    in_rows
}

#[cfg(test)]
mod tests {
    use super::*;

    fn segment(from: u64, to: u64, block: usize) -> Segment {
        Segment {
            from,
            to,
            kind: Kind::Block(block),
        }
    }

    #[test]
    fn a_row_shows_what_there_is_most_of() {
        let segments = [segment(0, 7, 0), segment(7, 10, 1), segment(10, 20, 1)];
        let expected = [segment(0, 1, 0), segment(1, 2, 1)];
        assert_eq!(in_rows(&segments, 20, 2), expected);
    }

    #[test]
    fn equal_rows_are_one_segment_and_gaps_stay() {
        let segments = [segment(0, 40, 0), segment(60, 100, 0)];
        let expected = [segment(0, 4, 0), segment(6, 10, 0)];
        assert_eq!(in_rows(&segments, 100, 10), expected);
    }

    #[test]
    fn nothing_is_lost_of_a_short_bar() {
        let rows = in_rows(&[segment(500, 501, 3)], 1000, 10);
        assert_eq!(rows, [segment(5, 6, 3)]);
    }
}
