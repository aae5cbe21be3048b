//! The paper's rules, and those of tanks, pointed ends, what the rounding did, decks, vessel numbers, forms, machinery and enclosing spaces
//! visited, once more, in plain safe Rust written for speed: what the proved calls are timed against.
//!
//! A sheet is changed in place. Like the proved one it holds its 200 places and its 64 open changes itself, since the measuring case
//! has no heap. `by_value` has the same calls on a sheet that goes in by value and comes back.
#![forbid(unsafe_code)]

pub mod by_value;
mod dayfile;
mod gross;
mod history;
mod measure;
mod refusal;
mod rules;
mod sheet;
mod tanks;

pub use dayfile::{move_last, Read, Unread};
pub use gross::Report;
pub use measure::Roundings;
pub use refusal::Refusal;
pub use rules::Space;
pub use sheet::{Counts, Entry, Sheet, Visiting};
pub use tanks::{lay_out, section_station, LaidOut, Tank};
