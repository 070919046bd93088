//! An independent engine for every call of the papers, in ordinary Rust and unverified: standard sort, hash sets, a textbook
//! union-find, a work-list saturation. Tests compare the proved engine with it and the benchmark times the two side by side.
//!
//! The calls have the shape of the C interface: lent lists and numbers, and a status that is 0 or the number of the refusal.

mod ask;
mod checks;
mod ends;
mod fast_intake;
mod intake;
mod join;
mod mistake;
mod removal;
mod roster;
mod saturate;
mod site;
mod slots;
mod strong;
mod triples;
mod weak;
mod weights;
mod words;

pub use ask::{ask, ask_with};
pub use fast_intake::{feed_fast, feed_lists_only, remove_fast, remove_lists_only, FastIntake};
pub use intake::{call_refusal, open, open_with, Fed, PlainIntake, Removed, State};
pub use mistake::Mistake;
pub use roster::own_roster;
pub use saturate::{saturate, saturate_with};
pub use site::{read, write};
pub use slots::{slots, slots_with, Bounds, PropertyBound};
pub use strong::{summarise_strong, summarise_strong_with};
pub use triples::{look_up, look_up_with};
pub use weak::{cliques, cliques_with, summarise, summarise_with};
pub use words::Words;

pub const ABSENT: u32 = u32::MAX;
pub const MIN_SIZE: usize = 5;
pub const MAX_SIZE: usize = 65_536;
pub const MAX_TRIPLES: usize = 1_048_576;
pub const MAX_WRITTEN: usize = 1_000;
pub const MAX_ASKS: usize = 16;
pub const MAX_PATTERNS: usize = 8;
/// A flat query: the count, then five numbers for each of eight patterns.
pub const QUERY_NUMBERS: usize = 41;
pub const QUERIES_NUMBERS: usize = QUERY_NUMBERS * MAX_ASKS;

pub const CLASS: u8 = 1;
pub const PROPERTY: u8 = 2;

pub const OK: u32 = 0;
pub const LENGTH: u32 = 1;
pub const ROSTER: u32 = 2;
pub const CODE: u32 = 3;
pub const COVER: u32 = 4;
pub const SLOTS: u32 = 5;
pub const QUERY: u32 = 6;
pub const FULL: u32 = 7;
pub const FORM: u32 = 8;
pub const MISSING: u32 = 9;
pub const WORDS: u32 = 10;
pub const RETIRED: u32 = 12;
