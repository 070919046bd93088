//! The small graphs of the scope paper and of the change requests, with the own roster.

mod common;

use common::{map_with, roster_of, saturation_of, summary_of, RDFS, SIX, SIX_NODES, SIX_SATURATED, SIX_SUMMARY};
use weak_summary::{ask, cliques, own_roster, read, summarise, Answer, Intake, Refusal, ABSENT};

#[test]
fn no_triples() {
    let (summary, map) = summary_of(RDFS, &[], 5);
    assert!(summary.is_empty());
    assert_eq!(map, [ABSENT; 5]);
}

#[test]
fn six_triples() {
    assert_eq!(saturation_of(RDFS, &SIX, 14, 2048).unwrap(), SIX_SATURATED);
    assert_eq!(summary_of(RDFS, &SIX, 14).0.len(), 3 * 6);
}

#[test]
fn six_triples_saturated_and_summarised() {
    let roster = roster_of(RDFS, &SIX, 14);
    let saturation = saturation_of(RDFS, &SIX, 14, 2048).unwrap();
    let (mut result, mut map, mut work) = (vec![1; 51], vec![1; 14], vec![1; 28]);
    let count = summarise(RDFS, &saturation, &roster, &mut result, &mut map, &mut work).unwrap();
    assert_eq!(result[..3 * count], SIX_SUMMARY);
    assert_eq!(map, map_with(14, &SIX_NODES));
    let text = b"(site 14)\n(ask ((v 0) 5 (v 1)) ((v 0) 6 (v 2)))\n(ask ((v 0) 7 (v 1)) ((v 1) 7 (v 2)))\n";
    let site = read(text, &mut []).unwrap();
    let answers = site.queries.iter().map(|q| ask(RDFS, &result[..3 * count], &map, q).unwrap());
    assert_eq!(answers.collect::<Vec<_>>(), [Answer::Maybe, Answer::None]);
}

#[test]
fn loop_is_itself() {
    let (summary, map) = summary_of(RDFS, &[10, 5, 10], 11);
    assert_eq!(summary, [10, 5, 10]);
    assert_eq!(map[10], 10);
}

#[test]
fn chain_is_one_loop() {
    assert_eq!(summary_of(RDFS, &[10, 5, 11, 11, 5, 12], 13).0, [10, 5, 10]);
}

#[test]
fn typed_only_are_one() {
    let (summary, map) = summary_of(RDFS, &[10, 0, 8, 11, 0, 9], 12);
    assert_eq!((map[10], map[11]), (10, 10));
    assert_eq!(summary, [10, 0, 8, 10, 0, 9]);
}

#[test]
fn typed_only_is_left_with_data() {
    let (_, map) = summary_of(RDFS, &[10, 0, 8, 11, 0, 9, 11, 5, 12], 13);
    assert_eq!(map[10..13], [10, 11, 12]);
}

#[test]
fn source_clique_of_three() {
    let table = [10, 5, 20, 10, 6, 21, 11, 6, 22, 11, 7, 23];
    let (mut sources, mut targets) = (vec![1; 24], vec![1; 24]);
    cliques(RDFS, &table, &roster_of(RDFS, &table, 24), &mut sources, &mut targets).unwrap();
    assert_eq!(sources, map_with(24, &[(5, 5), (6, 5), (7, 5)]));
    assert_eq!(targets, map_with(24, &[(5, 5), (6, 6), (7, 7)]));
    let (_, map) = summary_of(RDFS, &table, 24);
    assert_eq!(map[20..24], [20, 21, 21, 23]);
}

#[test]
fn class_links_nothing() {
    let table = [10, 0, 8, 8, 5, 12, 8, 6, 13];
    let (mut sources, mut targets) = (vec![1; 14], vec![1; 14]);
    cliques(RDFS, &table, &roster_of(RDFS, &table, 14), &mut sources, &mut targets).unwrap();
    assert_eq!((sources[5], sources[6]), (ABSENT, ABSENT));
    let (_, map) = summary_of(RDFS, &table, 14);
    assert_eq!((map[12], map[13]), (12, 13));
}

#[test]
fn subclass_cycle() {
    let expected = [8, 1, 8, 8, 1, 9, 9, 1, 8, 9, 1, 9];
    assert_eq!(saturation_of(RDFS, &[8, 1, 9, 9, 1, 8], 10, 4).unwrap(), expected);
}

/// A table, its size and its saturation.
type Closure<'a> = (&'a [u32], usize, &'a [u32]);

fn closes(graphs: &[Closure]) {
    for &(table, n, saturation) in graphs {
        assert_eq!(saturation_of(RDFS, table, n, saturation.len() / 3).unwrap(), saturation, "{table:?}");
        assert_eq!(saturation_of(RDFS, table, n, saturation.len() / 3 - 1), Err(Refusal::Slots), "{table:?}");
    }
}

#[test]
fn constraints_follow_from_constraints() {
    closes(&[
        (&[5, 2, 6, 6, 3, 8], 9, &[5, 2, 6, 5, 3, 8, 6, 3, 8]),
        (&[5, 2, 6, 6, 4, 8], 9, &[5, 2, 6, 5, 4, 8, 6, 4, 8]),
        (&[5, 3, 8, 8, 1, 9], 10, &[5, 3, 8, 5, 3, 9, 8, 1, 9]),
        (&[5, 4, 8, 8, 1, 9], 10, &[5, 4, 8, 5, 4, 9, 8, 1, 9]),
    ]);
}

#[test]
fn constraints_do_not_go_the_other_way() {
    closes(&[
        (&[6, 2, 5, 6, 3, 8], 9, &[6, 2, 5, 6, 3, 8]),
        (&[6, 2, 5, 6, 4, 8], 9, &[6, 2, 5, 6, 4, 8]),
        (&[5, 3, 8, 9, 1, 8], 10, &[5, 3, 8, 9, 1, 8]),
        (&[5, 4, 8, 9, 1, 8], 10, &[5, 4, 8, 9, 1, 8]),
    ]);
}

#[test]
fn constraints_along_chains_and_cycles() {
    let chain = [5, 2, 6, 5, 2, 7, 5, 3, 8, 5, 3, 9, 6, 2, 7, 6, 3, 8, 6, 3, 9, 7, 3, 8, 7, 3, 9, 8, 1, 9];
    closes(&[
        (&[5, 2, 6, 6, 2, 7, 7, 3, 8, 8, 1, 9], 10, &chain),
        (&[5, 2, 6, 6, 2, 5, 5, 3, 8], 9, &[5, 2, 5, 5, 2, 6, 5, 3, 8, 6, 2, 5, 6, 2, 6, 6, 3, 8]),
        (&[5, 3, 8, 8, 1, 9, 9, 1, 8], 10, &[5, 3, 8, 5, 3, 9, 8, 1, 8, 8, 1, 9, 9, 1, 8, 9, 1, 9]),
    ]);
}

#[test]
fn slots_of_the_six() {
    let roster = roster_of(RDFS, &SIX, 14);
    assert_eq!(weak_summary::saturate(RDFS, &SIX, &roster, &mut [0; 51]), Ok(17));
    let mut short = [1; 50];
    assert_eq!(weak_summary::saturate(RDFS, &SIX, &roster, &mut short), Err(Refusal::Slots));
    assert_eq!(short, [0; 50]);
}

#[test]
fn sizes() {
    assert_eq!(own_roster(RDFS, &[], &mut [0; 4]), Err(Refusal::Length));
    assert_eq!(own_roster(RDFS, &[], &mut [0; 5]), Ok(()));
    assert_eq!(own_roster(RDFS, &[], &mut vec![0; 65_536]), Ok(()));
    assert_eq!(own_roster(RDFS, &[], &mut vec![0; 65_537]), Err(Refusal::Length));
}

#[test]
fn reserved_object_comes_before_cover() {
    assert_eq!(own_roster(RDFS, &[10, 5, 0], &mut [0; 14]), Err(Refusal::Code));
    let table = [10, 5, 11, 10, 5, 0];
    assert_eq!(weak_summary::saturate(RDFS, &table, &[0; 14], &mut [0; 9]), Err(Refusal::Code));
}

#[test]
fn repeat_to_a_full_intake() {
    let mut intake = Intake::open(RDFS, &roster_of(RDFS, &[10, 5, 10], 12), 1).unwrap();
    assert_eq!(intake.feed([10, 5, 10]), Ok((true, 0)));
    assert_eq!(intake.feed([10, 5, 11]), Err(Refusal::Full));
    assert_eq!(intake.feed([10, 5, 10]), Ok((false, 0)));
}
