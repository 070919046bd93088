//! Queries and ask.

use crate::refusal::accepted;
use crate::{calls, Refusal, Words, MAX_PATTERNS, QUERY_NUMBERS};

/// An end of a pattern.
#[derive(Clone, Copy, PartialEq, Eq, Debug)]
pub enum End {
    /// A variable, 0 to 7.
    Variable(u32),
    /// A code; it stands for its map entry.
    Code(u32),
}

#[derive(Clone, Copy, PartialEq, Eq, Debug)]
pub struct Pattern {
    pub subject: End,
    pub property: u32,
    pub object: End,
}

impl Pattern {
    /// What patterns past the count are.
    pub const BLANK: Pattern = Pattern { subject: End::Variable(0), property: 0, object: End::Variable(0) };

    pub fn new(subject: End, property: u32, object: End) -> Pattern {
        Pattern { subject, property, object }
    }
}

/// One to eight patterns and their count.
#[derive(Clone, Copy, PartialEq, Eq, Debug)]
pub struct Query {
    pub patterns: [Pattern; MAX_PATTERNS],
    pub count: u32,
}

/// What ask says.
#[derive(Clone, Copy, PartialEq, Eq, Debug)]
pub enum Answer {
    Maybe,
    None,
}

impl End {
    fn numbers(self) -> [u32; 2] {
        match self {
            End::Variable(v) => [0, v],
            End::Code(c) => [1, c],
        }
    }

    fn of(numbers: &[u32]) -> End {
        match numbers[0] {
            0 => End::Variable(numbers[1]),
            _ => End::Code(numbers[1]),
        }
    }
}

impl Query {
    /// A query of these patterns; over eight are refused as ask would.
    pub fn new(patterns: &[Pattern]) -> Result<Query, Refusal> {
        if patterns.len() > MAX_PATTERNS {
            return Err(Refusal::Query);
        }
        let mut query = Query { patterns: [Pattern::BLANK; MAX_PATTERNS], count: patterns.len() as u32 };
        query.patterns[..patterns.len()].copy_from_slice(patterns);
        Ok(query)
    }

    /// The query as the C interface takes it.
    pub fn flat(&self) -> [u32; QUERY_NUMBERS] {
        let mut flat = [0; QUERY_NUMBERS];
        flat[0] = self.count;
        for (place, pattern) in flat[1..].chunks_exact_mut(5).zip(&self.patterns) {
            place[..2].copy_from_slice(&pattern.subject.numbers());
            place[2] = pattern.property;
            place[3..].copy_from_slice(&pattern.object.numbers());
        }
        flat
    }

    /// The query of a flat query that reading gave.
    pub(crate) fn of(flat: &[u32]) -> Query {
        let mut query = Query { patterns: [Pattern::BLANK; MAX_PATTERNS], count: flat[0] };
        for (pattern, place) in query.patterns.iter_mut().zip(flat[1..].chunks_exact(5)) {
            *pattern = Pattern::new(End::of(&place[..2]), place[2], End::of(&place[3..]));
        }
        query
    }
}

/// Whether some choice of nodes for the variables puts every pattern in the table; N is the map's length. Of the words only type
/// may be a counted pattern's property: with another the query is refused with [`Refusal::Retired`](crate::Refusal::Retired).
///
/// [`Answer::None`] is safe only on the summary of a saturated table, asked by the map that came with that summary: then the saturated
/// table has no match. The plain summary of another table, an [`Intake`](crate::Intake)'s too, lacks what the rules give.
pub fn ask(words: Words, table: &[u32], map: &[u32], query: &Query) -> Result<Answer, Refusal> {
    let mut maybe = 0;
    accepted(calls::ask(&words.0, table, map, &query.flat(), &mut maybe))?;
    Ok(if maybe == 1 { Answer::Maybe } else { Answer::None })
}
