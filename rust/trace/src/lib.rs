//! What a job does on the proved engine, seen through its exports: a trace pick by pick, a picture and a
//! profile, with the names and lines of the text. Programs stay as they are, and no other machine runs.
//!
//! `player` calls the engine, `effect` reads off two states what a pick did, `faults` keeps what became of
//! each fault, and `skim` finds faults without going pick by pick.

pub mod course;
pub mod effect;
pub mod faults;
pub mod order;
pub mod outcome;
pub mod picture;
pub mod player;
pub mod profile;
pub mod skim;
pub mod state;
pub mod subject;
pub mod text;
pub mod watch;
pub mod words;
