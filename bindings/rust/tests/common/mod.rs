//! What the tests share.
#![allow(dead_code)]

use weak_summary::calls::{self, State};
use weak_summary::{own_roster, saturate, summarise, summarise_strong};
use weak_summary::{End, Intake, Pattern, Query, Refusal, Triple, Words, ABSENT};

/// The words of the scope paper.
pub const RDFS: Words = Words::RDFS;

/// The scope paper's six triples; N is 14.
pub const SIX: [u32; 18] = [5, 2, 7, 6, 2, 7, 7, 3, 8, 8, 1, 9, 10, 5, 12, 11, 6, 13];

/// The summary of their saturation.
pub const SIX_SUMMARY: [u32; 42] = [
    5, 2, 7, 5, 3, 8, 5, 3, 9, 6, 2, 7, 6, 3, 8, 6, 3, 9, 7, 3, 8, 7, 3, 9, 8, 1, 9, 10, 0, 8, 10, 0, 9, 10, 5, 12, 10,
    6, 12, 10, 7, 12,
];

/// Their saturation.
pub const SIX_SATURATED: [u32; 51] = [
    5, 2, 7, 5, 3, 8, 5, 3, 9, 6, 2, 7, 6, 3, 8, 6, 3, 9, 7, 3, 8, 7, 3, 9, 8, 1, 9, 10, 0, 8, 10, 0, 9, 10, 5, 12, 10,
    7, 12, 11, 0, 8, 11, 0, 9, 11, 6, 13, 11, 7, 13,
];

/// The nodes of both and their representatives.
pub const SIX_NODES: [(usize, u32); 9] =
    [(5, 5), (6, 6), (7, 7), (8, 8), (9, 9), (10, 10), (11, 10), (12, 12), (13, 12)];

pub fn roster_of(words: Words, table: &[u32], n: usize) -> Vec<u8> {
    let mut roster = vec![7; n];
    own_roster(words, table, &mut roster).unwrap();
    roster
}

/// The weak summary or the strong one.
pub type Summarise = fn(Words, &[u32], &[u8], &mut [u32], &mut [u32], &mut [u32]) -> Result<usize, Refusal>;

/// The summary with the own roster, and its map.
pub fn summary_by(call: Summarise, words: Words, table: &[u32], n: usize) -> (Vec<u32>, Vec<u32>) {
    let roster = roster_of(words, table, n);
    let mut result = vec![9; table.len()];
    let mut map = vec![9; n];
    let mut work = vec![9; 2 * n];
    let count = call(words, table, &roster, &mut result, &mut map, &mut work).unwrap();
    assert!(work.iter().all(|&x| x == 0));
    assert!(result[3 * count..].iter().all(|&x| x == 0));
    result.truncate(3 * count);
    (result, map)
}

/// The plain summary, weakly.
pub fn summary_of(words: Words, table: &[u32], n: usize) -> (Vec<u32>, Vec<u32>) {
    summary_by(summarise, words, table, n)
}

/// The plain summary, strongly.
pub fn strong_summary_of(words: Words, table: &[u32], n: usize) -> (Vec<u32>, Vec<u32>) {
    summary_by(summarise_strong, words, table, n)
}

pub fn saturation_of(words: Words, table: &[u32], n: usize, slots: usize) -> Result<Vec<u32>, Refusal> {
    let mut result = vec![9; 3 * slots];
    let count = saturate(words, table, &roster_of(words, table, n), &mut result)?;
    assert!(result[3 * count..].iter().all(|&x| x == 0));
    result.truncate(3 * count);
    Ok(result)
}

/// What reworking a summary leaves, in lists just long enough for it: its saturation, the summary of that, and the second map.
pub fn reworked(call: Summarise, words: Words, summary: &[u32], roster: &[u8]) -> [Vec<u32>; 3] {
    let (mut saturated, mut again) = (vec![9; summary.len()], vec![9; summary.len()]);
    let (mut map, mut work) = (vec![9; roster.len()], vec![9; 2 * roster.len()]);
    assert_eq!(saturate(words, summary, roster, &mut saturated), Ok(summary.len() / 3));
    assert_eq!(call(words, &saturated, roster, &mut again, &mut map, &mut work), Ok(summary.len() / 3));
    assert!(work.iter().all(|&x| x == 0));
    [saturated, again, map]
}

/// A query of one pattern.
pub fn one(subject: End, property: u32, object: End) -> Query {
    Query::new(&[Pattern::new(subject, property, object)]).unwrap()
}

/// A map of n entries with these nodes and their representatives.
pub fn map_with(n: usize, nodes: &[(usize, u32)]) -> Vec<u32> {
    let mut map = vec![ABSENT; n];
    for &(code, representative) in nodes {
        map[code] = representative;
    }
    map
}

/// A line of a summary and its weight.
pub type Line = (Triple, u32);

/// An intake's summary line by line, with the weights.
pub fn lines(intake: &Intake) -> Vec<Line> {
    assert_eq!(intake.summary().len(), 3 * intake.weights().len());
    intake.summary().chunks_exact(3).map(|t| [t[0], t[1], t[2]]).zip(intake.weights().iter().copied()).collect()
}

/// All that an intake of 24 codes is lent.
#[derive(Clone, PartialEq, Debug)]
pub struct Lent {
    pub triples: Vec<u32>,
    pub summary: Vec<u32>,
    pub weights: Vec<u32>,
    pub map: Vec<u32>,
    pub work: Vec<u32>,
    pub counts: [usize; 2],
    pub is_new: u32,
    pub place: usize,
}

impl Lent {
    /// Lists of nines: triples, summary and weights of these lengths.
    pub fn nines([triples, summary, weights]: [usize; 3]) -> Lent {
        let [triples, summary, weights, map, work] = [triples, summary, weights, 24, 48].map(|length| vec![9; length]);
        Lent { triples, summary, weights, map, work, counts: [9; 2], is_new: 9, place: 9 }
    }

    /// The lists, the work list, and the two numbers that take a feed's answers.
    fn parts(&mut self) -> (State<'_>, &mut [u32], &mut u32, &mut usize) {
        let Lent { triples, summary, weights, map, work, counts: [held, summarised], is_new, place } = self;
        (State { triples, summary, weights, map, held, summarised }, work, is_new, place)
    }

    pub fn open(&mut self, words: &[u32], roster: &[u8]) -> u32 {
        calls::open(words, roster, self.parts().0)
    }

    pub fn feed(&mut self, words: &[u32], roster: &[u8], t: Triple) -> u32 {
        let (state, work, is_new, place) = self.parts();
        calls::feed(calls::Lent { words, roster, state, work }, t, is_new, place)
    }

    pub fn remove(&mut self, words: &[u32], roster: &[u8], t: Triple) -> u32 {
        let (state, work, _, place) = self.parts();
        calls::remove(calls::Lent { words, roster, state, work }, t, place)
    }

    /// The same with nines in the work list and in the numbers that take answers.
    pub fn spoilt(mut self) -> Lent {
        self.work.fill(9);
        (self.is_new, self.place) = (9, 9);
        self
    }
}
