//! The expectation monitor in plain Rust, written from the documents alone.

pub mod calls;
pub mod kinds;
pub mod labelling;
pub mod lawful;
pub mod monitor;
pub mod table;
pub mod texts;
pub mod watching;

pub use calls::Answer;
pub use kinds::{Dated, Kind, Strip};
pub use labelling::label_whole;
pub use lawful::Refusal;
pub use monitor::Monitor;
pub use table::{Formula, Link, Rule, State, Table};
pub use texts::{read_rules, read_state, Fault};
pub use watching::watch;

pub const MOST_FORMULAS: usize = 64;
pub const MOST_RULES: usize = 16;
pub const MOST_STATES: usize = 256;

#[cfg(test)]
mod tests;
