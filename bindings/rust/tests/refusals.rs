//! Each refusal of each call, and that only 5 and 8 alter what was lent, but for the place, which is 0 after each.

mod common;

use common::{one, roster_of, Summarise, RDFS, SIX};
use weak_summary::{ask, cliques, own_roster, read, saturate, summarise, summarise_strong, write};
use weak_summary::{calls, look_up, End, Intake, Pattern, Query, Refusal, Words};

/// A table, a roster, the lengths of result, map and work, and the refusal.
type Case<'a> = (&'a [u32], &'a [u8], [usize; 3], Refusal);

/// Summarises into lists of ones and gives them back with the answer.
fn summarised(call: Summarise, (table, roster, lengths, _): Case) -> (Result<usize, Refusal>, [Vec<u32>; 3]) {
    let mut lists = lengths.map(|length| vec![1; length]);
    let [result, map, work] = &mut lists;
    let answer = call(RDFS, table, roster, result, map, work);
    (answer, lists)
}

fn all(lists: &[Vec<u32>], value: u32) -> bool {
    lists.iter().flatten().all(|&x| x == value)
}

#[test]
fn both_summaries_refuse_in_order() {
    let roster = roster_of(RDFS, &SIX, 14);
    let mut marked = roster.clone();
    marked[3] = 1;
    let mut over = roster.clone();
    over[13] = 4;
    let wrong_code = [&SIX[..], &[14, 5, 10]].concat();
    let cases: [Case; 9] = [
        (&SIX[..17], &over, [18, 14, 28], Refusal::Length),
        (&SIX, &over, [18, 13, 28], Refusal::Length),
        (&SIX, &over, [18, 14, 27], Refusal::Length),
        (&SIX, &roster[..4], [18, 4, 8], Refusal::Length),
        (&wrong_code, &marked, [18, 14, 28], Refusal::Roster),
        (&SIX, &over, [18, 14, 28], Refusal::Roster),
        (&wrong_code, &[0; 14], [18, 14, 28], Refusal::Code),
        (&SIX, &[0; 14], [0, 14, 28], Refusal::Cover),
        (&SIX, &roster, [17, 14, 28], Refusal::Slots),
    ];
    for call in [summarise as Summarise, summarise_strong] {
        for case in cases {
            let (answer, lists) = summarised(call, case);
            assert_eq!(answer, Err(case.3));
            assert!(all(&lists, if case.3 == Refusal::Slots { 0 } else { 1 }));
        }
    }
}

#[test]
fn saturate_and_cliques_refuse() {
    let table = [10, 5, 11];
    let mut result = [1; 3];
    assert_eq!(saturate(RDFS, &table, &[0; 12], &mut result), Err(Refusal::Cover));
    assert_eq!(saturate(RDFS, &table, &[9; 12], &mut result), Err(Refusal::Roster));
    assert_eq!(saturate(RDFS, &table, &[9; 65_537], &mut result), Err(Refusal::Length));
    assert_eq!(result, [1; 3]);
    let (mut sources, mut targets) = ([1; 12], [1; 11]);
    assert_eq!(cliques(RDFS, &table, &[9; 12], &mut sources, &mut targets), Err(Refusal::Length));
    let mut targets = [1; 12];
    assert_eq!(cliques(RDFS, &table, &[9; 12], &mut sources, &mut targets), Err(Refusal::Roster));
    assert_eq!(cliques(RDFS, &[4, 5, 11], &[0; 12], &mut sources, &mut targets), Err(Refusal::Code));
    assert_eq!(cliques(RDFS, &table, &[0; 12], &mut sources, &mut targets), Err(Refusal::Cover));
    assert_eq!((sources, targets), ([1; 12], [1; 12]));
}

#[test]
fn own_roster_refuses() {
    let mut roster = [9; 12];
    assert_eq!(own_roster(RDFS, &[10, 5], &mut roster), Err(Refusal::Length));
    assert_eq!(own_roster(RDFS, &[10, 12, 11], &mut roster), Err(Refusal::Code));
    assert_eq!(roster, [9; 12]);
    assert_eq!(own_roster(RDFS, &vec![5; 3 * 1_048_577], &mut roster), Err(Refusal::Length));
}

#[test]
fn look_up_refuses_lengths_only() {
    assert_eq!(look_up(&[1, 2], [1, 2, 3]), Err(Refusal::Length));
    assert_eq!(look_up(&[9, 9, 9, 1, 2, 3], [1, 2, 3]), Ok((true, 0)));
    assert_eq!(look_up(&[1, 1, 2, 3, 1, 1], [1, 2, 3]), Ok((false, 1)));
    assert_eq!(look_up(&[], [0, 0, 0]), Ok((false, 0)));
    assert_eq!(look_up(&vec![0; 3 * 1_048_577], [0, 0, 0]), Err(Refusal::Length));
}

#[test]
fn ask_refuses_in_order() {
    let variable = End::Variable;
    let right = one(variable(0), 5, variable(7));
    let retired = one(variable(0), 1, variable(7));
    let refused = [
        (Query::new(&[]).unwrap(), Refusal::Query),
        (Query { count: 9, ..right }, Refusal::Query),
        (one(variable(8), 5, variable(7)), Refusal::Query),
        (one(variable(0), 12, variable(7)), Refusal::Query),
        (one(variable(0), 5, End::Code(12)), Refusal::Query),
        (Query { count: 9, ..retired }, Refusal::Query),
        (one(variable(8), 1, variable(7)), Refusal::Query),
        (one(variable(0), 1, End::Code(12)), Refusal::Query),
        (retired, Refusal::Retired),
    ];
    let table = [10, 5, 11];
    let map = [10; 12];
    assert!(ask(RDFS, &table, &map, &right).is_ok());
    for (query, refusal) in &refused {
        assert_eq!(ask(RDFS, &table[..2], &map, query), Err(Refusal::Length));
        assert_eq!(ask(Words([0, 1, 2, 3, 3]), &[10, 5, 4], &map, query), Err(Refusal::Words));
        assert_eq!(ask(RDFS, &[10, 5, 4], &map, query), Err(Refusal::Code));
        assert_eq!(ask(RDFS, &table, &map, query), Err(*refusal));
    }
    assert_eq!(Query::new(&[Pattern::BLANK; 9]), Err(Refusal::Query));
    assert_eq!(calls::ask(&RDFS.0, &table, &map, &right.flat()[..40], &mut 0), 1);
    let mut flat = right.flat();
    flat[4] = 2;
    assert_eq!(calls::ask(&RDFS.0, &table, &map, &flat, &mut 0), 6);
}

#[test]
fn numbers_of_refusals() {
    let numbers = [1, 2, 3, 4, 5, 6, 7, 8, 9, 10, 12];
    for number in 0..=20 {
        let refusal = Refusal::numbered(number);
        assert_eq!(refusal.map(Refusal::number), numbers.contains(&number).then_some(number));
    }
    assert_eq!(Refusal::numbered(12), Some(Refusal::Retired));
    assert_eq!(Refusal::Retired.to_string(), "refused with 12: the query is retired");
    assert_eq!(Refusal::numbered(9), Some(Refusal::Missing));
    assert_eq!(Refusal::Missing.to_string(), "refused with 9: the intake does not hold the triple");
}

#[test]
fn intake_refuses_in_order() {
    assert_eq!(Intake::open(RDFS, &[0; 4], 3).err(), Some(Refusal::Length));
    assert_eq!(Intake::open(RDFS, &[0; 9], 1_048_577).err(), Some(Refusal::Length));
    assert_eq!(Intake::open(RDFS, &[1; 9], 3).err(), Some(Refusal::Roster));
    let mut intake = Intake::open(RDFS, &roster_of(RDFS, &[10, 5, 11], 12), 1).unwrap();
    assert_eq!(intake.feed([12, 5, 11]), Err(Refusal::Code));
    assert_eq!(intake.feed([10, 6, 11]), Err(Refusal::Cover));
    assert_eq!(intake.remove([10, 5, 11]), Err(Refusal::Missing));
    assert_eq!(intake.feed([10, 5, 11]), Ok((true, 0)));
    assert_eq!(intake.feed([10, 5, 10]), Err(Refusal::Full));
    assert_eq!(intake.feed([10, 6, 11]), Err(Refusal::Cover));
    assert_eq!(intake.remove([12, 5, 11]), Err(Refusal::Code));
    assert_eq!(intake.remove([10, 6, 11]), Err(Refusal::Cover));
    assert_eq!(intake.remove([10, 5, 10]), Err(Refusal::Missing));
    assert_eq!((intake.triples(), intake.summary()), (&[10, 5, 11][..], &[10, 5, 11][..]));
}

/// Feeds 10 5 11 to lists of ones with 12 codes; the status and what the lists then hold.
fn fed(roster: &[u8], work_length: usize) -> (u32, [Vec<u32>; 5]) {
    let mut lists = [6, 6, 2, roster.len(), work_length].map(|length| vec![1; length]);
    let (mut held, mut summarised, mut is_new, mut place) = (0, 0, 7, 7);
    let [triples, summary, weights, map, work] = &mut lists;
    let state = calls::State { triples, summary, weights, map, held: &mut held, summarised: &mut summarised };
    let lent = calls::Lent { words: &RDFS.0, roster, state, work };
    let status = calls::feed(lent, [10, 5, 11], &mut is_new, &mut place);
    assert_eq!((held, summarised, is_new, place), (0, 0, 7, 0));
    (status, lists)
}

#[test]
fn a_feed_refuses_lengths_and_rosters() {
    let roster = roster_of(RDFS, &[10, 5, 11], 12);
    let mut marked = roster.clone();
    marked[4] = 2;
    for (roster, work_length, refusal) in [(&roster, 23, 1), (&marked, 25, 1), (&marked, 24, 2)] {
        let (status, lists) = fed(roster, work_length);
        assert_eq!(status, refusal);
        assert!(all(&lists, 1));
    }
}

#[test]
fn reading_refuses_queries_and_words_of_another_length() {
    for (queries_length, words_length) in [(655, 5), (657, 5), (656, 4), (656, 6), (656, 0)] {
        let (mut list, mut queries, mut words) = ([1; 6], vec![1; queries_length], vec![1; words_length]);
        let (mut n, mut count, mut asks) = (7, 7, 7);
        let text = b"(site 05)\n";
        assert_eq!(calls::read(text, &mut list, &mut queries, &mut words, &mut n, &mut count, &mut asks), 1);
        assert_eq!((list, queries, words), ([1; 6], vec![1; queries_length], vec![1; words_length]));
        assert_eq!((n, count, asks), (7, 7, 7));
    }
}

#[test]
fn read_and_write_refuse() {
    let mut list = [1; 5];
    assert_eq!(read(b"(site 05)\n", &mut list), Err(Refusal::Form));
    assert_eq!(list, [0; 5]);
    let text = b"(site 9)\n(t 1 2 3)\n(t 4294967295 2 3)\n";
    list = [1; 5];
    assert_eq!(read(text, &mut list), Err(Refusal::Slots));
    assert_eq!(list, [0; 5]);
    let mut out = [1; 20];
    assert_eq!(write(RDFS, 4, &[], &mut out), Err(Refusal::Length));
    assert_eq!(write(RDFS, 9, &[5; 3_003], &mut out), Err(Refusal::Length));
    assert_eq!(write(RDFS, 9, &[8, 5, 9], &mut out), Err(Refusal::Code));
    assert_eq!(out, [1; 20]);
    assert_eq!(write(RDFS, 65_536, &[8, 5, 8], &mut out), Err(Refusal::Slots));
    assert_eq!(out, [0; 20]);
}
