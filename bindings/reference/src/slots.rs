//! The slots that a weak summary may need, as 02 words it: a set for each thing that is counted.

use crate::words::Kind;
use crate::{Mistake, Words};
use std::collections::{BTreeMap, BTreeSet};

/// What bounds the lines of a data property: its distinct triples, and a grid. This has a row for each marked subject and one for all
/// the others, and a column for each marked object and one for all the others.
#[derive(Clone, Copy, PartialEq, Eq, Debug)]
pub struct PropertyBound {
    pub triples: usize,
    pub rows: usize,
    pub columns: usize,
}

impl PropertyBound {
    pub fn cells(self) -> usize {
        self.rows.saturating_mul(self.columns)
    }

    /// The most lines of the property.
    pub fn lines(self) -> usize {
        self.triples.min(self.cells())
    }
}

/// What bounds a table's weak summary.
#[derive(Clone, PartialEq, Eq, Debug)]
pub struct Bounds {
    /// For each data property below N that the table has.
    pub properties: BTreeMap<u32, PropertyBound>,
    /// The distinct schema and type triples.
    pub others: usize,
}

impl Bounds {
    /// The most data lines.
    pub fn data(&self) -> usize {
        self.properties.values().map(|bound| bound.lines()).sum()
    }

    /// The most lines.
    pub fn slots(&self) -> usize {
        self.data() + self.others
    }
}

/// How many there are without repeats.
fn distinct(mistake: Mistake, triples: &[[u32; 3]]) -> usize {
    match mistake {
        Mistake::RepeatsCounted => triples.len(),
        _ => triples.iter().collect::<BTreeSet<_>>().len(),
    }
}

/// How many marked codes stand at a place of the triples, and one more for all the others.
fn marked_and_one(mistake: Mistake, triples: &[[u32; 3]], place: usize, roster: &[u8]) -> usize {
    let wanted = mistake != Mistake::UnmarkedCounted;
    let is_counted = |code: u32| roster.get(code as usize).is_some_and(|&mark| (mark != 0) == wanted);
    let marked: BTreeSet<u32> = triples.iter().map(|t| t[place]).filter(|&code| is_counted(code)).collect();
    match mistake {
        Mistake::NoPlusOne => marked.len(),
        Mistake::MarkedAsOne => 1,
        _ => marked.len() + 1,
    }
}

/// The type triples by their classes alone.
fn by_class(words: Words, triples: &mut [[u32; 3]]) {
    for t in triples.iter_mut().filter(|t| words.kind(t[1]) == Kind::Type) {
        t[0] = 0;
    }
}

pub fn slots(words: Words, table: &[u32], roster: &[u8]) -> Bounds {
    slots_with(Mistake::None, words, table, roster)
}

/// Takes numbers of every kind; those behind the last whole triple are left out.
pub fn slots_with(mistake: Mistake, words: Words, table: &[u32], roster: &[u8]) -> Bounds {
    let words = mistake.words(words);
    let triples = table.as_chunks::<3>().0.iter().copied();
    let (data, mut others): (Vec<[u32; 3]>, Vec<[u32; 3]>) = triples.partition(|t| words.is_data(t[1]));
    if mistake == Mistake::TypesByClass {
        by_class(words, &mut others);
    }
    let mut groups: BTreeMap<u32, Vec<[u32; 3]>> = BTreeMap::new();
    for t in data.into_iter().filter(|t| (t[1] as usize) < roster.len()) {
        groups.entry(t[1]).or_default().push(t);
    }
    let bound = |group: &[[u32; 3]]| PropertyBound {
        triples: distinct(mistake, group),
        rows: marked_and_one(mistake, group, 0, roster),
        columns: marked_and_one(mistake, group, 2, roster),
    };
    let properties = groups.into_iter().map(|(property, group)| (property, bound(&group))).collect();
    Bounds { properties, others: distinct(mistake, &others) }
}
