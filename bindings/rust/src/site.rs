//! The site form.

use crate::refusal::accepted;
use crate::{calls, Query, Refusal, Words, QUERIES_NUMBERS, QUERY_NUMBERS};

/// What a text gives besides its triples.
#[derive(Clone, PartialEq, Eq, Debug)]
pub struct Site {
    /// N as it stands in the text.
    pub n: u32,
    /// The words as they stand in the text, or 0 to 4 where it has none. Reading does not judge them.
    pub words: Words,
    /// The number of triples put in the list.
    pub count: usize,
    /// The queries as they stand in the text. Reading does not judge them: [`ask`](crate::ask) may refuse one as wrong or retired.
    pub queries: Vec<Query>,
}

/// Reads a text in the site form, whose grammar is in `include/weak_summary.h`; its triples go into the list.
pub fn read(text: &[u8], list: &mut [u32]) -> Result<Site, Refusal> {
    let mut flat = [0; QUERIES_NUMBERS];
    let mut words = Words::default();
    let (mut n, mut count, mut asks) = (0, 0, 0);
    accepted(calls::read(text, list, &mut flat, &mut words.0, &mut n, &mut count, &mut asks))?;
    let queries = flat.chunks_exact(QUERY_NUMBERS).take(asks).map(Query::of).collect();
    Ok(Site { n, words, count, queries })
}

/// Writes the site line, the words unless they are 0 to 4 in this sequence, and the table's triples, and gives the number of
/// bytes. 22,051 bytes are always enough.
pub fn write(words: Words, n: u32, table: &[u32], out: &mut [u8]) -> Result<usize, Refusal> {
    let mut count = 0;
    accepted(calls::write(&words.0, n, table, out, &mut count)).map(|()| count)
}
