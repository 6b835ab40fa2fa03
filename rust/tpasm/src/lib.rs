//! Programs as text: an assembler that writes images and jobs, and a disassembler.
//!
//! `docs/assembly.md` has the grammar. The notation is that of document 002's Figure 2 in ASCII.

mod annotation;
mod assemble;
mod block;
pub mod command;
mod cursor;
mod describe;
mod habits;
mod instruction;
mod job;
mod list;
mod message;
mod names;
pub mod notation;
mod origins;
mod recover;
mod refusal;
mod settings;
mod show;
mod suggest;
mod text;
mod token;
mod version;
mod warnings;

pub use assemble::{assemble, Assembly};
pub use job::job;
pub use list::{is_job, list, list_file, written};
pub use message::{Message, Position, Severity, Span};
pub use names::{Names, Registers};
pub use origins::{Label, Origins};
pub use refusal::{Fault, Refusal};
pub use settings::{Settings, INTERVALS, PLACES};
pub use show::{excerpt, show, MAX_MESSAGES};
pub use suggest::nearest;
