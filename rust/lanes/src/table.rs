//! The counts as a Markdown table.

use crate::counts::{Counts, MAX_LANES};

/// A row for each job. A cell has the rounds and the most that the bound allows.
pub fn table(counts: &[Counts]) -> String {
    let heads = ["job", "end", "work", "span", "1 lane"].map(String::from);
    let heads: Vec<String> = heads
        .into_iter()
        .chain((2..=MAX_LANES).map(|lanes| lanes.to_string()))
        .collect();
    let rule = vec!["---".to_string(); heads.len()];
    let rows = counts.iter().map(cells);
    [heads, rule].into_iter().chain(rows).map(row).collect()
}

fn cells(counts: &Counts) -> Vec<String> {
    let outcome = &counts.outcome;
    let mut cells = vec![
        format!("`{}`", counts.name),
        outcome.end.clone(),
        outcome.work.to_string(),
        outcome.span.to_string(),
    ];
    let cell = |(lanes, rounds)| format!("{} ≤ {}", rounds, counts.limit(lanes));
    cells.extend(counts.on_lanes().map(cell));
    cells
}

fn row(cells: Vec<String>) -> String {
    format!("| {} |\n", cells.join(" | "))
}
