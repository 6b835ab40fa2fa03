//! The engine's exports compared with the model, on seeded images, jobs, orders of picks and single
//! steps; and the model's machine compared with its plain evaluation.
//!
//! A case is named by a seed and a number, and made from these two alone, so that one that failed
//! can be run again by itself: `cargo run --release --bin soak -- 1 SEED NUMBER` for an image,
//! `--bin soak_orders` for a job on the model, `--bin soak_replay` for one with an order,
//! `--bin soak_jobs` for one with a budget, `--bin soak_dispatch` for one in rounds and
//! `--bin soak_steps` for one in steps on both.
//!
//! Every buffer that is lent lies beside a closed page, or between margins that are looked at: a call
//! that reads or writes beyond it ends the process, or is seen.
//!
//! Without the feature `engine`, which is on by default, this is the seeded cases and the model's
//! part alone, and needs no archive: so the benchmark's peer is compared with the model.

#![cfg_attr(not(feature = "engine"), allow(dead_code, unused_macros))]

macro_rules! ensure {
    ($holds:expr, $($what:tt)+) => {
        if !$holds {
            return Err(format!($($what)+));
        }
    };
}

pub mod assemble;
#[cfg(feature = "engine")]
pub mod budgets;
#[cfg(feature = "engine")]
pub mod budgets_coverage;
#[cfg(feature = "engine")]
pub mod compare;
pub mod counts;
#[cfg(feature = "engine")]
pub mod coverage;
pub mod damage;
#[cfg(feature = "engine")]
pub mod dispatch;
#[cfg(feature = "engine")]
pub mod dispatch_coverage;
mod draft;
pub mod generate;
#[cfg(feature = "engine")]
pub mod guarded;
pub mod hand;
pub mod job_coverage;
pub mod jobs;
pub mod layout;
#[cfg(feature = "engine")]
pub mod lent;
mod names;
pub mod numbers;
pub mod orders;
pub mod product;
pub mod random;
#[cfg(feature = "engine")]
pub mod replay;
#[cfg(feature = "engine")]
pub mod replay_coverage;
pub mod report;
pub mod rounds;
#[cfg(feature = "engine")]
pub mod run;
#[cfg(feature = "engine")]
pub mod run_program;
mod shadow;
pub mod shares;
pub mod soak;
pub mod state;
#[cfg(feature = "engine")]
pub mod steps;
#[cfg(feature = "engine")]
pub mod steps_coverage;
