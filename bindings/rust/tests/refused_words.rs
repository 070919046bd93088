//! That every call that takes words refuses a list of another length with 1 and wrong words with 10, straight after 1, and that
//! nothing is then altered, but for the place of a feed or a removal.

mod common;

use common::{one, roster_of, RDFS, SIX};
use weak_summary::{calls, own_roster, End, Refusal, Words};

/// What the calls are given: the words aside, all right or all wrong.
struct Given {
    table: Vec<u32>,
    roster: Vec<u8>,
    query: Vec<u32>,
}

/// What the calls may alter.
#[derive(Clone, PartialEq, Debug)]
struct Lent {
    roster: Vec<u8>,
    text: Vec<u8>,
    result: Vec<u32>,
    summary: Vec<u32>,
    weights: Vec<u32>,
    map: Vec<u32>,
    work: Vec<u32>,
    numbers: [usize; 2],
    answer: u32,
    place: usize,
}

impl Lent {
    /// Lists for 14 codes and 17 triples, with a map of this length.
    fn new(map_length: usize) -> Lent {
        Lent {
            roster: vec![9; 14],
            text: vec![9; 200],
            result: vec![9; 51],
            summary: vec![9; 51],
            weights: vec![9; 17],
            map: vec![9; map_length],
            work: vec![9; 28],
            numbers: [9, 9],
            answer: 9,
            place: 9,
        }
    }

    /// The same after this call was refused: a feed or a removal has reported the place 0.
    fn refused(name: &str, map_length: usize) -> Lent {
        let place = if matches!(name, "feed" | "remove") { 0 } else { 9 };
        Lent { place, ..Lent::new(map_length) }
    }
}

/// What an intake is lent besides a triple, and the numbers for its answer.
type Parts<'a> = (calls::Lent<'a>, &'a mut u32, &'a mut usize);

fn parts<'a>(words: &'a [u32], given: &'a Given, l: &'a mut Lent) -> Parts<'a> {
    let [held, summarised] = &mut l.numbers;
    let (triples, summary, weights, map) = (&mut l.result, &mut l.summary, &mut l.weights, &mut l.map);
    let state = calls::State { triples, summary, weights, map, held, summarised };
    (calls::Lent { words, roster: &given.roster, state, work: &mut l.work }, &mut l.answer, &mut l.place)
}

/// The triple that is fed and removed.
fn last(given: &Given) -> [u32; 3] {
    let end = given.table.len();
    [given.table[end - 3], given.table[end - 2], given.table[end - 1]]
}

fn open(words: &[u32], given: &Given, l: &mut Lent) -> u32 {
    let (lent, _, _) = parts(words, given, l);
    calls::open(lent.words, lent.roster, lent.state)
}

fn feed(words: &[u32], given: &Given, l: &mut Lent) -> u32 {
    let (lent, answer, place) = parts(words, given, l);
    calls::feed(lent, last(given), answer, place)
}

fn remove(words: &[u32], given: &Given, l: &mut Lent) -> u32 {
    let (lent, _, place) = parts(words, given, l);
    calls::remove(lent, last(given), place)
}

type Call = fn(&[u32], &Given, &mut Lent) -> u32;

/// The calls that take words; a feed comes straight after an opening, and the removal of its triple after it.
const CALLS: [(&str, Call); 10] = [
    ("own roster", |words, given, l| calls::own_roster(words, &given.table, &mut l.roster)),
    ("saturate", |words, given, l| {
        calls::saturate(words, &given.table, &given.roster, &mut l.result, &mut l.numbers[0])
    }),
    ("cliques", |words, given, l| calls::cliques(words, &given.table, &given.roster, &mut l.map, &mut l.work[14..])),
    ("summarise", |words, given, l| {
        let [count, _] = &mut l.numbers;
        calls::summarise(words, &given.table, &given.roster, &mut l.result, &mut l.map, &mut l.work, count)
    }),
    ("summarise strongly", |words, given, l| {
        let [count, _] = &mut l.numbers;
        calls::summarise_strong(words, &given.table, &given.roster, &mut l.result, &mut l.map, &mut l.work, count)
    }),
    ("ask", |words, given, l| calls::ask(words, &given.table, &l.map, &given.query, &mut l.answer)),
    ("open", open),
    ("feed", feed),
    ("remove", remove),
    ("write", |words, given, l| calls::write(words, 14, &given.table, &mut l.text, &mut l.numbers[0])),
];

/// The six triples, or a wrong roster, a wrong triple at the end and a wrong query.
fn given(right: bool) -> Given {
    let variables = one(End::Variable(0), 5, End::Variable(7));
    let mut given = Given { table: SIX.to_vec(), roster: roster_of(RDFS, &SIX, 14), query: variables.flat().to_vec() };
    if !right {
        given.table.extend([14, 5, 0]);
        given.roster[13] = 4;
        given.query[0] = 9;
    }
    given
}

#[test]
fn every_call_takes_right_words() {
    let mut lent = Lent::new(14);
    for (name, call) in CALLS {
        assert_eq!(call(&RDFS.0, &given(true), &mut lent), 0, "{name}");
    }
}

#[test]
fn every_call_refuses_words_of_another_length_first() {
    let numbers = [0, 1, 2, 3, 4, 5];
    let lists: [&[u32]; 5] = [&[], &numbers[..1], &numbers[..4], &numbers, &[14; 10]];
    for (name, call) in CALLS {
        for words in lists {
            for right in [true, false] {
                let mut lent = Lent::new(14);
                assert_eq!(call(words, &given(right), &mut lent), 1, "{name} {words:?}");
                assert_eq!(lent, Lent::refused(name, 14), "{name} {words:?}");
            }
        }
    }
}

/// Words with two codes equal, in each two places, and words with a code not below n, in each place.
fn wrong_words(n: u32) -> Vec<[u32; 5]> {
    let mut wrong = Vec::new();
    for i in 0..5 {
        let codes = (0..i).map(|j| RDFS.0[j]).chain([n, n + 1, u32::MAX]);
        wrong.extend(codes.map(|code| {
            let mut words = RDFS.0;
            words[i] = code;
            words
        }));
    }
    wrong
}

#[test]
fn every_call_refuses_wrong_words_straight_after_lengths() {
    for (name, call) in CALLS {
        for words in wrong_words(14) {
            for right in [true, false] {
                let mut lent = Lent::new(14);
                assert_eq!(call(&words, &given(right), &mut lent), 10, "{name} {words:?}");
                assert_eq!(lent, Lent::refused(name, 14), "{name} {words:?}");
            }
        }
    }
}

#[test]
fn lengths_come_before_wrong_words() {
    let mut short = given(false);
    short.table.truncate(17);
    for (name, call) in CALLS {
        let mut lent = Lent::new(13);
        assert_eq!(call(&[0, 1, 2, 3, 3], &short, &mut lent), 1, "{name}");
        assert_eq!(lent, Lent::refused(name, 13), "{name}");
    }
}

#[test]
fn words_below_n_pass() {
    for words in [[0, 1, 2, 3, 13], [13, 12, 11, 10, 9], [4, 3, 2, 1, 0]] {
        assert_eq!(own_roster(Words(words), &[], &mut [9; 14]), Ok(()));
        assert_eq!(own_roster(Words(words), &[], &mut [9; 4]), Err(Refusal::Length));
    }
    assert_eq!(own_roster(Words([0, 1, 2, 3, 5]), &[], &mut [9; 6]), Ok(()));
    assert_eq!(own_roster(Words([0, 1, 2, 3, 5]), &[], &mut [9; 5]), Err(Refusal::Words));
}
