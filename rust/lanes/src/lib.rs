//! The rounds that the engine's dispatcher takes for the jobs of examples/ on 1 to 8 lanes, beside
//! what the bound allows: the table and the plot of docs/lanes.md.
//!
//! The bound is proved. It is tested here again, so that no page is made of numbers that break it.

pub mod counts;
pub mod examples;
mod options;
pub mod page;
pub mod plot;
pub mod table;
