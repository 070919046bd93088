//! The weak summary of a site graph: safe calls of the proved engine.
//!
//! Lists are slices, a refusal is an error, and an accepted call gives its values. The calls that judge codes take the reserved
//! ones, [`Words`], first. What a call leaves in each slice is said in `include/weak_summary.h`; [`calls`] has the same calls with
//! the status and the lent numbers as they are.
//!
//! A controller takes the [`own_roster`] of its table, [`saturate`]s the table, [`summarise`]s the saturation, and [`ask`]s that
//! summary by its own map.

pub mod calls;
pub mod ffi;
mod intake;
mod query;
mod refusal;
mod site;
mod slots;
mod words;

pub use intake::Intake;
pub use query::{ask, Answer, End, Pattern, Query};
pub use refusal::Refusal;
pub use site::{read, write, Site};
pub use slots::slots_bound;
pub use words::Words;

use refusal::accepted;

/// The entry of a code that has none.
pub const ABSENT: u32 = u32::MAX;
/// The most patterns of a query.
pub const MAX_PATTERNS: usize = 8;
/// The numbers of a word table.
pub const WORDS_NUMBERS: usize = 5;
/// The numbers of a flat query.
pub const QUERY_NUMBERS: usize = 41;
/// The numbers of the sixteen flat queries of a text.
pub const QUERIES_NUMBERS: usize = 656;

/// A subject, a property and an object.
pub type Triple = [u32; 3];

/// Puts the smallest roster that covers the table; N is the roster's length.
pub fn own_roster(words: Words, table: &[u32], roster: &mut [u8]) -> Result<(), Refusal> {
    accepted(calls::own_roster(&words.0, table, roster))
}

/// Saturates the table into the result and gives the number of triples.
pub fn saturate(words: Words, table: &[u32], roster: &[u8], result: &mut [u32]) -> Result<usize, Refusal> {
    let mut count = 0;
    accepted(calls::saturate(&words.0, table, roster, result, &mut count)).map(|()| count)
}

/// Puts, for each code taken as a property, the smallest property of its source clique and of its target clique.
pub fn cliques(
    words: Words,
    table: &[u32],
    roster: &[u8],
    sources: &mut [u32],
    targets: &mut [u32],
) -> Result<(), Refusal> {
    accepted(calls::cliques(&words.0, table, roster, sources, targets))
}

/// Puts the summary and the map and gives the number of triples. The work list has 2 × N numbers. A result as long as the table is
/// always long enough, and so is one with three numbers for each slot of [`slots_bound`], which is mostly far shorter.
pub fn summarise(
    words: Words,
    table: &[u32],
    roster: &[u8],
    result: &mut [u32],
    map: &mut [u32],
    work: &mut [u32],
) -> Result<usize, Refusal> {
    let mut count = 0;
    accepted(calls::summarise(&words.0, table, roster, result, map, work, &mut count)).map(|()| count)
}

/// As [`summarise`], but nodes are put together only if they have the same source clique and the same target clique, none
/// counting as a value. [`slots_bound`] is no bound for it: it may need more slots, up to as many as the table has triples.
pub fn summarise_strong(
    words: Words,
    table: &[u32],
    roster: &[u8],
    result: &mut [u32],
    map: &mut [u32],
    work: &mut [u32],
) -> Result<usize, Refusal> {
    let mut count = 0;
    accepted(calls::summarise_strong(&words.0, table, roster, result, map, work, &mut count)).map(|()| count)
}

/// Whether the triple is in the list, and its place: how many triples of the list come before it in the order of subject, property,
/// object. The list may be in any order. Each repeat of a triple before it counts; the triple itself and its repeats do not.
///
/// In a rising list without repeats the place is where the triple stands, or else where it would stand.
pub fn look_up(list: &[u32], t: Triple) -> Result<(bool, usize), Refusal> {
    let (mut found, mut place) = (0, 0);
    accepted(calls::look_up(list, t[0], t[1], t[2], &mut found, &mut place)).map(|()| (found == 1, place))
}
