//! Other words than 0 to 4: the small graphs with their codes renamed, and codes 0 to 4 in every other role.

mod common;

use common::{map_with, one, reworked, roster_of, saturation_of, strong_summary_of, summary_of, Summarise};
use common::{RDFS, SIX, SIX_NODES, SIX_SATURATED, SIX_SUMMARY};
use weak_summary::{ask, cliques, own_roster, saturate, summarise, summarise_strong};
use weak_summary::{Answer, End, Intake, Pattern, Query, Refusal, Words, ABSENT};

/// Type at 310; codes 0 to 4 are free. N is 311.
const RESORT: Words = Words([310, 5, 6, 7, 8]);

/// Words with an N that the small graphs fit in: those of the papers, rising, falling, 0 to 4 otherwise, and without order.
const TABLES: [(Words, u32); 7] = [
    (RDFS, 24),
    (RESORT, 311),
    (Words([10, 11, 12, 13, 14]), 24),
    (Words([14, 13, 12, 11, 10]), 24),
    (Words([4, 3, 2, 1, 0]), 24),
    (Words([0, 1, 2, 4, 3]), 24),
    (Words([3, 23, 0, 11, 7]), 24),
];

/// What a code of the papers becomes: a word for 0 to 4, and for the others the codes that are no words, in rising order.
struct Renaming {
    words: Words,
    n: usize,
    codes: Vec<u32>,
}

impl Renaming {
    fn new((words, n): (Words, u32)) -> Renaming {
        let free = (0..n).filter(|code| !words.0.contains(code));
        Renaming { words, n: n as usize, codes: words.0.into_iter().chain(free).collect() }
    }

    /// The triples in rising order.
    fn triples(&self, table: &[u32]) -> Vec<u32> {
        let code = |c: u32| self.codes[c as usize];
        let mut triples: Vec<[u32; 3]> = table.chunks_exact(3).map(|t| [code(t[0]), code(t[1]), code(t[2])]).collect();
        triples.sort_unstable();
        triples.concat()
    }

    /// A list of N numbers with these entries, absent elsewhere.
    fn list(&self, entries: &[(usize, u32)]) -> Vec<u32> {
        let renamed = |&(c, entry): &(usize, u32)| (self.codes[c] as usize, self.codes[entry as usize]);
        map_with(self.n, &entries.iter().map(renamed).collect::<Vec<_>>())
    }
}

fn renamings() -> impl Iterator<Item = Renaming> {
    TABLES.into_iter().map(Renaming::new)
}

#[test]
fn saturations_are_renamed() {
    let graphs: [(&[u32], &[u32]); 5] = [
        (&SIX, &SIX_SATURATED),
        (&[8, 1, 9, 9, 1, 8], &[8, 1, 8, 8, 1, 9, 9, 1, 8, 9, 1, 9]),
        (&[5, 2, 6, 6, 2, 5, 5, 3, 8], &[5, 2, 5, 5, 2, 6, 5, 3, 8, 6, 2, 5, 6, 2, 6, 6, 3, 8]),
        (&[5, 4, 8, 8, 1, 9], &[5, 4, 8, 5, 4, 9, 8, 1, 9]),
        (&[5, 4, 8, 10, 5, 11], &[5, 4, 8, 10, 5, 11, 11, 0, 8]),
    ];
    for names in renamings() {
        for (table, saturation) in graphs {
            let expected = names.triples(saturation);
            let table = names.triples(table);
            assert_eq!(saturation_of(names.words, &table, names.n, expected.len() / 3), Ok(expected), "{table:?}");
        }
    }
}

/// A table, its summary, and its nodes with their representatives.
type Summarised<'a> = (&'a [u32], &'a [u32], &'a [(usize, u32)]);

#[test]
fn summaries_are_renamed() {
    let graphs: [Summarised; 5] = [
        (&SIX_SATURATED, &SIX_SUMMARY, &SIX_NODES),
        (&[10, 5, 10], &[10, 5, 10], &[(10, 10)]),
        (&[10, 5, 11, 11, 5, 12], &[10, 5, 10], &[(10, 10), (11, 10), (12, 10)]),
        (&[10, 0, 8, 11, 0, 9], &[10, 0, 8, 10, 0, 9], &[(8, 8), (9, 9), (10, 10), (11, 10)]),
        (&[10, 0, 8, 8, 5, 12, 8, 6, 13], &[10, 0, 8, 8, 5, 12, 8, 6, 13], &[(8, 8), (10, 10), (12, 12), (13, 13)]),
    ];
    for names in renamings() {
        for (table, summary, nodes) in graphs {
            let found = summary_of(names.words, &names.triples(table), names.n);
            assert_eq!(found, (names.triples(summary), names.list(nodes)), "{:?} {table:?}", names.words);
        }
    }
}

#[test]
fn strong_summaries_are_renamed() {
    let nodes = [(10, 10), (11, 10), (12, 12), (13, 13), (14, 14)];
    for names in renamings() {
        let table = names.triples(&[10, 5, 12, 11, 5, 13, 12, 6, 14]);
        let summary = names.triples(&[10, 5, 12, 10, 5, 13, 12, 6, 14]);
        let found = strong_summary_of(names.words, &table, names.n);
        assert_eq!(found, (summary, names.list(&nodes)), "{:?}", names.words);
    }
}

#[test]
fn summaries_rest() {
    let own: Vec<(usize, u32)> = SIX_NODES.into_iter().filter(|&(code, to)| code == to as usize).collect();
    for names in renamings() {
        let roster = roster_of(names.words, &names.triples(&SIX), names.n);
        let summary = names.triples(&SIX_SUMMARY);
        let expected = [summary.clone(), summary.clone(), names.list(&own)];
        for call in [summarise as Summarise, summarise_strong] {
            assert_eq!(reworked(call, names.words, &summary, &roster), expected, "{:?}", names.words);
        }
    }
}

#[test]
fn cliques_are_renamed() {
    for names in renamings() {
        let table = names.triples(&[10, 5, 20, 10, 6, 21, 11, 6, 22, 11, 7, 23]);
        let roster = roster_of(names.words, &table, names.n);
        let (mut sources, mut targets) = (vec![1; names.n], vec![1; names.n]);
        cliques(names.words, &table, &roster, &mut sources, &mut targets).unwrap();
        assert_eq!(sources, names.list(&[(5, 5), (6, 5), (7, 5)]));
        assert_eq!(targets, names.list(&[(5, 5), (6, 6), (7, 7)]));
    }
}

#[test]
fn answers_are_the_same() {
    let [x, y, z] = [0, 1, 2].map(End::Variable);
    for names in renamings() {
        let [p, q, r] = [5, 6, 7].map(|property: usize| names.codes[property]);
        let first = Query::new(&[Pattern::new(x, p, y), Pattern::new(x, q, z)]).unwrap();
        let second = Query::new(&[Pattern::new(x, r, y), Pattern::new(y, r, z)]).unwrap();
        let types = one(x, names.words.0[0], End::Code(names.codes[9]));
        let (summary, map) = (names.triples(&SIX_SUMMARY), names.list(&SIX_NODES));
        let answers = [first, second, types].map(|query| ask(names.words, &summary, &map, &query));
        assert_eq!(answers, [Ok(Answer::Maybe), Ok(Answer::None), Ok(Answer::Maybe)]);
    }
}

#[test]
fn intakes_hold_the_same() {
    for names in renamings() {
        let table = names.triples(&SIX_SATURATED);
        let mut intake = Intake::open(names.words, &roster_of(names.words, &table, names.n), 17).unwrap();
        for t in table.chunks_exact(3).rev() {
            assert_eq!(intake.feed([t[0], t[1], t[2]]), Ok((true, 0)));
        }
        assert_eq!(intake.feed([table[0], table[1], table[2]]), Ok((false, 0)));
        assert_eq!(intake.feed([table[48], table[49], table[50]]), Ok((false, 16)));
        assert_eq!(intake.triples(), table);
        assert_eq!(intake.summary(), names.triples(&SIX_SUMMARY));
        assert_eq!(intake.map(), names.list(&SIX_NODES));
    }
}

/// Codes 0 to 4 as node, classes and properties.
const LOW_CODES: [u32; 18] = [0, 310, 1, 11, 310, 1, 1, 5, 2, 3, 6, 4, 4, 7, 2, 9, 3, 10];

#[test]
fn low_codes_are_ordinary() {
    let roster = roster_of(RESORT, &LOW_CODES, 311);
    assert_eq!(roster[..5], [0, 1, 1, 2, 2]);
    assert!(roster[5..].iter().all(|&mark| mark == 0));
    let saturation = saturation_of(RESORT, &LOW_CODES, 311, 11).unwrap();
    let expected = [
        [0, 310, 1],
        [0, 310, 2],
        [1, 5, 2],
        [3, 6, 4],
        [3, 7, 2],
        [4, 7, 2],
        [9, 3, 10],
        [9, 4, 10],
        [9, 310, 2],
        [11, 310, 1],
        [11, 310, 2],
    ];
    assert_eq!(saturation, expected.concat());
    let (summary, map) = summary_of(RESORT, &saturation, 311);
    assert_eq!(summary, expected[..9].concat());
    let nodes = [(0, 0), (1, 1), (2, 2), (3, 3), (4, 4), (9, 9), (10, 10), (11, 0)];
    assert_eq!(map, map_with(311, &nodes));
    assert!(RESORT.0.iter().all(|&code| map[code as usize] == ABSENT));
}

#[test]
fn low_codes_have_cliques_and_answers() {
    let table = [9, 0, 2, 9, 1, 3, 10, 1, 4];
    let roster = roster_of(RESORT, &table, 311);
    let (mut sources, mut targets) = (vec![1; 311], vec![1; 311]);
    cliques(RESORT, &table, &roster, &mut sources, &mut targets).unwrap();
    assert_eq!(sources, map_with(311, &[(0, 0), (1, 0)]));
    assert_eq!(targets, map_with(311, &[(0, 0), (1, 1)]));
    let (summary, map) = summary_of(RESORT, &table, 311);
    assert_eq!(summary, [9, 0, 2, 9, 1, 3]);
    for (object, answer) in [(2, Answer::None), (4, Answer::Maybe)] {
        let query = one(End::Code(10), 1, End::Code(object));
        assert_eq!(ask(RESORT, &summary, &map, &query), Ok(answer));
    }
}

#[test]
fn roster_entries_of_the_words_are_zero() {
    let table = [10, 9, 11];
    for (code, answer) in [(310, Err(Refusal::Roster)), (5, Err(Refusal::Roster)), (0, Ok(1)), (4, Ok(1))] {
        let mut roster = roster_of(RESORT, &table, 311);
        roster[code] = 1;
        assert_eq!(saturate(RESORT, &table, &roster, &mut [0; 3]), answer);
        let opened = Intake::open(RESORT, &roster, 1).map(|_| 1);
        assert_eq!(opened, answer);
    }
}

#[test]
fn words_are_no_subjects_or_objects() {
    for table in [[310, 5, 11], [11, 5, 310], [8, 9, 11], [11, 310, 5]] {
        assert_eq!(own_roster(RESORT, &table, &mut [0; 311]), Err(Refusal::Code), "{table:?}");
        let (mut map, mut work) = ([1; 311], [1; 622]);
        assert_eq!(summarise(RESORT, &table, &[0; 311], &mut [1; 3], &mut map, &mut work), Err(Refusal::Code));
    }
    assert_eq!(own_roster(RESORT, &[0, 310, 4, 1, 2, 3], &mut [0; 311]), Ok(()));
    assert_eq!(own_roster(RDFS, &[310, 5, 11], &mut [0; 311]), Ok(()));
}
