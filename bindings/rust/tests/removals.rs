//! Triples that leave an intake.

mod common;

use common::{lines, map_with, roster_of, Lent, Line, RDFS, SIX_NODES, SIX_SATURATED};
use weak_summary::{Intake, Refusal, Triple, Words, ABSENT};

/// What an intake holds: its triples, its lines with their weights, and its nodes with their representatives.
type Held<'a> = (&'a [Triple], &'a [Line], &'a [(usize, u32)]);

/// An intake of 24 codes with the own roster of these triples, which were fed to it, and a slot for each.
fn holding(words: Words, table: &[Triple]) -> Intake {
    with_roster(words, &roster_of(words, &table.concat(), 24), table)
}

/// The same with this roster.
fn with_roster(words: Words, roster: &[u8], table: &[Triple]) -> Intake {
    let mut intake = Intake::open(words, roster, table.len()).unwrap();
    for &t in table {
        assert!(intake.feed(t).unwrap().0, "{t:?}");
    }
    intake
}

fn check(intake: &Intake, (triples, summary, nodes): Held) {
    assert_eq!(intake.triples(), triples.concat());
    assert_eq!(lines(intake), summary);
    assert_eq!(intake.map(), map_with(intake.map().len(), nodes));
}

/// Removes a triple from the intake, which stands at this place and leaves this.
fn leaves(intake: &mut Intake, t: Triple, place: usize, left: Held) {
    assert_eq!(intake.remove(t), Ok(place), "{t:?}");
    check(intake, left);
    assert_eq!(intake.remove(t), Err(Refusal::Missing), "{t:?}");
    check(intake, left);
}

#[test]
fn a_chain_falls_apart_where_its_line_stays() {
    // Both ends of 7 8 9 stay nodes, and without it the line would still weigh 2.
    let mut intake = holding(RDFS, &[[5, 8, 7], [7, 8, 9], [9, 8, 10]]);
    check(&intake, (&[[5, 8, 7], [7, 8, 9], [9, 8, 10]], &[([5, 8, 5], 3)], &[(5, 5), (7, 5), (9, 5), (10, 5)]));
    leaves(
        &mut intake,
        [7, 8, 9],
        1,
        (&[[5, 8, 7], [9, 8, 10]], &[([5, 8, 7], 2)], &[(5, 5), (7, 7), (9, 5), (10, 7)]),
    );
}

#[test]
fn a_class_falls_apart_where_the_subject_keeps_the_property() {
    let mut intake = holding(RDFS, &[[5, 6, 5], [5, 6, 8]]);
    check(&intake, (&[[5, 6, 5], [5, 6, 8]], &[([5, 6, 5], 2)], &[(5, 5), (8, 5)]));
    leaves(&mut intake, [5, 6, 5], 0, (&[[5, 6, 8]], &[([5, 6, 8], 1)], &[(5, 5), (8, 8)]));
}

#[test]
fn a_class_falls_apart_where_the_object_keeps_the_property() {
    let mut intake = holding(RDFS, &[[5, 6, 5], [8, 6, 5]]);
    check(&intake, (&[[5, 6, 5], [8, 6, 5]], &[([5, 6, 5], 2)], &[(5, 5), (8, 5)]));
    leaves(&mut intake, [5, 6, 5], 0, (&[[8, 6, 5]], &[([8, 6, 5], 1)], &[(5, 5), (8, 8)]));
}

#[test]
fn classes_fall_apart_where_a_node_loses_one_of_two_properties() {
    // 10 has 5 and 6, so 11 and 12 are with it. Without 6 it leaves 12 alone, and 21, which stood for 22, vanishes.
    let mut intake = holding(RDFS, &[[10, 5, 20], [10, 6, 21], [11, 5, 20], [12, 6, 22]]);
    let before: &[Line] = &[([10, 5, 20], 2), ([10, 6, 21], 2)];
    assert_eq!(lines(&intake), before);
    leaves(
        &mut intake,
        [10, 6, 21],
        1,
        (
            &[[10, 5, 20], [11, 5, 20], [12, 6, 22]],
            &[([10, 5, 20], 2), ([12, 6, 22], 1)],
            &[(10, 10), (11, 10), (12, 12), (20, 20), (22, 22)],
        ),
    );
}

#[test]
fn a_node_comes_back_to_those_with_types_only() {
    let mut intake = holding(RDFS, &[[10, 0, 8], [11, 0, 9], [11, 5, 12]]);
    check(
        &intake,
        (
            &[[10, 0, 8], [11, 0, 9], [11, 5, 12]],
            &[([10, 0, 8], 1), ([11, 0, 9], 1), ([11, 5, 12], 1)],
            &[(8, 8), (9, 9), (10, 10), (11, 11), (12, 12)],
        ),
    );
    leaves(
        &mut intake,
        [11, 5, 12],
        2,
        (&[[10, 0, 8], [11, 0, 9]], &[([10, 0, 8], 1), ([10, 0, 9], 1)], &[(8, 8), (9, 9), (10, 10), (11, 10)]),
    );
    leaves(&mut intake, [10, 0, 8], 0, (&[[11, 0, 9]], &[([11, 0, 9], 1)], &[(9, 9), (11, 11)]));
}

#[test]
fn an_object_comes_back_to_those_with_types_only() {
    // The types of 10, 11 and 12 become one line.
    let mut intake = holding(RDFS, &[[10, 0, 8], [11, 0, 8], [12, 0, 8], [20, 5, 11]]);
    assert_eq!(lines(&intake), [([10, 0, 8], 2), ([11, 0, 8], 1), ([20, 5, 11], 1)]);
    leaves(
        &mut intake,
        [20, 5, 11],
        3,
        (&[[10, 0, 8], [11, 0, 8], [12, 0, 8]], &[([10, 0, 8], 3)], &[(8, 8), (10, 10), (11, 10), (12, 10)]),
    );
}

#[test]
fn the_smallest_code_leaves_its_class() {
    let mut intake = holding(RDFS, &[[10, 5, 20], [11, 5, 21], [12, 5, 22]]);
    assert_eq!(lines(&intake), [([10, 5, 20], 3)]);
    leaves(
        &mut intake,
        [10, 5, 20],
        0,
        (&[[11, 5, 21], [12, 5, 22]], &[([11, 5, 21], 2)], &[(11, 11), (12, 11), (21, 21), (22, 21)]),
    );
    leaves(&mut intake, [11, 5, 21], 0, (&[[12, 5, 22]], &[([12, 5, 22], 1)], &[(12, 12), (22, 22)]));
    // Of nodes with types only.
    let mut intake = holding(RDFS, &[[10, 0, 8], [11, 0, 8], [12, 0, 9]]);
    assert_eq!(lines(&intake), [([10, 0, 8], 2), ([10, 0, 9], 1)]);
    leaves(
        &mut intake,
        [10, 0, 8],
        0,
        (&[[11, 0, 8], [12, 0, 9]], &[([11, 0, 8], 1), ([11, 0, 9], 1)], &[(8, 8), (9, 9), (11, 11), (12, 11)]),
    );
}

#[test]
fn another_code_leaves_its_class() {
    let mut intake = holding(RDFS, &[[10, 5, 20], [11, 5, 21], [12, 5, 22]]);
    leaves(
        &mut intake,
        [11, 5, 21],
        1,
        (&[[10, 5, 20], [12, 5, 22]], &[([10, 5, 20], 2)], &[(10, 10), (12, 10), (20, 20), (22, 20)]),
    );
    leaves(&mut intake, [12, 5, 22], 1, (&[[10, 5, 20]], &[([10, 5, 20], 1)], &[(10, 10), (20, 20)]));
}

#[test]
fn the_other_triples_keep_both_ends() {
    // Each of 10, 11 leads to each of 20, 21.
    let mut intake = holding(RDFS, &[[10, 5, 20], [10, 5, 21], [11, 5, 20], [11, 5, 21]]);
    let nodes = &[(10, 10), (11, 10), (20, 20), (21, 20)];
    assert_eq!(lines(&intake), [([10, 5, 20], 4)]);
    leaves(&mut intake, [11, 5, 21], 3, (&[[10, 5, 20], [10, 5, 21], [11, 5, 20]], &[([10, 5, 20], 3)], nodes));
    leaves(&mut intake, [10, 5, 20], 0, (&[[10, 5, 21], [11, 5, 20]], &[([10, 5, 20], 2)], nodes));
}

#[test]
fn a_line_goes_where_the_ends_are_kept() {
    // 10 0 8: its class is kept by the schema, and its subject by data.
    let mut intake = holding(RDFS, &[[8, 1, 9], [10, 0, 8], [10, 5, 20]]);
    let nodes = &[(8, 8), (9, 9), (10, 10), (20, 20)];
    check(
        &intake,
        (&[[8, 1, 9], [10, 0, 8], [10, 5, 20]], &[([8, 1, 9], 1), ([10, 0, 8], 1), ([10, 5, 20], 1)], nodes),
    );
    leaves(&mut intake, [10, 0, 8], 1, (&[[8, 1, 9], [10, 5, 20]], &[([8, 1, 9], 1), ([10, 5, 20], 1)], nodes));
    // 10 5 20: the others that keep its ends have the marked code 8 at their other end, and so other lines.
    let mut roster = roster_of(RDFS, &[10, 5, 20], 24);
    roster[8] = 1;
    let mut intake = with_roster(RDFS, &roster, &[[8, 5, 20], [10, 5, 8], [10, 5, 20]]);
    let nodes = &[(8, 8), (10, 10), (20, 20)];
    assert_eq!(lines(&intake), [([8, 5, 20], 1), ([10, 5, 8], 1), ([10, 5, 20], 1)]);
    leaves(&mut intake, [10, 5, 20], 2, (&[[8, 5, 20], [10, 5, 8]], &[([8, 5, 20], 1), ([10, 5, 8], 1)], nodes));
}

#[test]
fn a_line_stays_where_the_ends_are_kept() {
    // Two types of one line: 10 and 11 are one class by property 5.
    let mut intake = holding(RDFS, &[[8, 1, 9], [10, 0, 8], [10, 5, 20], [11, 0, 8], [11, 5, 20]]);
    let nodes = &[(8, 8), (9, 9), (10, 10), (11, 10), (20, 20)];
    assert_eq!(lines(&intake), [([8, 1, 9], 1), ([10, 0, 8], 2), ([10, 5, 20], 2)]);
    leaves(
        &mut intake,
        [11, 0, 8],
        3,
        (
            &[[8, 1, 9], [10, 0, 8], [10, 5, 20], [11, 5, 20]],
            &[([8, 1, 9], 1), ([10, 0, 8], 1), ([10, 5, 20], 2)],
            nodes,
        ),
    );
}

#[test]
fn marked_nodes_vanish_and_part_nobody() {
    // 8 is a class and 5 a property, both as nodes too.
    let mut intake = holding(RDFS, &[[5, 3, 8], [10, 5, 8], [10, 5, 20]]);
    let all = &[(5, 5), (8, 8), (10, 10), (20, 20)];
    assert_eq!(lines(&intake), [([5, 3, 8], 1), ([10, 5, 8], 1), ([10, 5, 20], 1)]);
    leaves(&mut intake, [10, 5, 8], 1, (&[[5, 3, 8], [10, 5, 20]], &[([5, 3, 8], 1), ([10, 5, 20], 1)], all));
    leaves(&mut intake, [5, 3, 8], 0, (&[[10, 5, 20]], &[([10, 5, 20], 1)], &[(10, 10), (20, 20)]));
}

#[test]
fn lines_and_weights_behind_move_up() {
    let table = [[5, 3, 8], [8, 1, 9], [10, 0, 8], [10, 0, 9], [10, 5, 20], [11, 0, 9], [11, 5, 20]];
    let mut intake = holding(RDFS, &table);
    assert_eq!(lines(&intake), [([5, 3, 8], 1), ([8, 1, 9], 1), ([10, 0, 8], 1), ([10, 0, 9], 2), ([10, 5, 20], 2)]);
    assert_eq!(intake.remove([10, 0, 8]), Ok(2));
    assert_eq!(lines(&intake), [([5, 3, 8], 1), ([8, 1, 9], 1), ([10, 0, 9], 2), ([10, 5, 20], 2)]);
    assert_eq!(intake.remove([5, 3, 8]), Ok(0));
    assert_eq!(lines(&intake), [([8, 1, 9], 1), ([10, 0, 9], 2), ([10, 5, 20], 2)]);
    assert_eq!(intake.remove([11, 5, 20]), Ok(4));
    // 11 has types only now, and 10 has data.
    assert_eq!(lines(&intake), [([8, 1, 9], 1), ([10, 0, 9], 1), ([10, 5, 20], 1), ([11, 0, 9], 1)]);
}

#[test]
fn places_are_those_of_the_triples_held() {
    let table = [[10, 5, 12], [10, 5, 13], [10, 7, 11], [11, 5, 10], [12, 6, 10]];
    let mut intake = holding(RDFS, &table);
    assert_eq!(intake.remove([10, 7, 11]), Ok(2));
    assert_eq!(intake.remove([12, 6, 10]), Ok(3));
    assert_eq!(intake.remove([10, 5, 12]), Ok(0));
    assert_eq!(intake.remove([11, 5, 10]), Ok(1));
    assert_eq!(intake.remove([10, 5, 13]), Ok(0));
    for (i, t) in table.into_iter().enumerate() {
        assert_eq!(intake.feed(t), Ok((true, i)));
    }
    for (i, t) in table.into_iter().enumerate().rev() {
        assert_eq!(intake.remove(t), Ok(i));
    }
}

#[test]
fn other_words() {
    // Type is 20; 0 is a property, 4 a class.
    let words = Words([20, 21, 22, 23, 19]);
    let mut intake = holding(words, &[[10, 20, 4], [11, 0, 12], [11, 20, 4]]);
    assert_eq!(lines(&intake), [([10, 20, 4], 1), ([11, 0, 12], 1), ([11, 20, 4], 1)]);
    leaves(
        &mut intake,
        [11, 0, 12],
        1,
        (&[[10, 20, 4], [11, 20, 4]], &[([10, 20, 4], 2)], &[(4, 4), (10, 10), (11, 10)]),
    );
}

/// The saturation of the six triples.
fn saturated() -> Vec<Triple> {
    SIX_SATURATED.chunks_exact(3).map(|t| [t[0], t[1], t[2]]).collect()
}

fn same(a: &Intake, b: &Intake) {
    assert_eq!((a.triples(), a.summary(), a.weights(), a.map()), (b.triples(), b.summary(), b.weights(), b.map()));
}

#[test]
fn what_is_left_is_what_feeding_it_leaves() {
    let (table, roster) = (saturated(), roster_of(RDFS, &SIX_SATURATED, 14));
    let all = with_roster(RDFS, &roster, &table);
    assert_eq!(all.map(), map_with(14, &SIX_NODES));
    for (i, &t) in table.iter().enumerate() {
        let mut intake = with_roster(RDFS, &roster, &table);
        assert_eq!(intake.remove(t), Ok(i));
        let others = [&table[..i], &table[i + 1..]].concat();
        same(&intake, &with_roster(RDFS, &roster, &others));
        assert_eq!(intake.weights().iter().sum::<u32>(), 16);
        assert_eq!(intake.feed(t), Ok((true, i)));
        same(&intake, &all);
    }
}

#[test]
fn all_leave_in_every_turn() {
    let (table, roster) = (saturated(), roster_of(RDFS, &SIX_SATURATED, 14));
    for turn in 0..table.len() {
        let mut intake = with_roster(RDFS, &roster, &table);
        for i in 0..table.len() {
            let (start, count) = (turn.min(table.len() - i - 1), table.len() - i - 1);
            let t = intake.triples()[3 * start..3 * start + 3].to_vec();
            assert_eq!(intake.remove([t[0], t[1], t[2]]), Ok(start));
            assert_eq!(intake.triples().len(), 3 * count);
            assert_eq!(intake.weights().iter().sum::<u32>() as usize, count);
        }
        check(&intake, (&[], &[], &[]));
    }
}

#[test]
fn a_line_of_ten_thousand() {
    let mut roster = vec![0; 311];
    roster[5] = 2;
    let table: Vec<Triple> = (100..200).flat_map(|s| (200..300).map(move |o| [s, 5, o])).collect();
    let mut intake = with_roster(RDFS, &roster, &table);
    assert_eq!(intake.remove([150, 5, 250]), Ok(5_050));
    assert_eq!(lines(&intake), [([100, 5, 200], 9_999)]);
    assert_eq!(intake.remove([100, 5, 200]), Ok(0));
    assert_eq!(lines(&intake), [([100, 5, 200], 9_998)]);
    assert_eq!(intake.feed([150, 5, 250]), Ok((true, 5_049)));
    assert_eq!(lines(&intake), [([100, 5, 200], 9_999)]);
}

/// A roster of 24 codes for the properties 5, 6 and 7 and the classes 8 and 9.
fn roster() -> Vec<u8> {
    roster_of(RDFS, &[10, 5, 11, 10, 6, 11, 10, 7, 11, 10, 0, 8, 10, 0, 9], 24)
}

/// Lists of five slots, opened, with nines in the work list and in the numbers that take answers.
fn opened() -> Lent {
    let mut lent = Lent::nines([15, 16, 5]);
    assert_eq!(lent.open(&RDFS.0, &roster()), 0);
    lent
}

/// The same with these triples fed.
fn fed(table: &[Triple]) -> Lent {
    let mut lent = opened();
    for &t in table {
        assert_eq!(lent.feed(&RDFS.0, &roster(), t), 0, "{t:?}");
        assert_eq!(lent.is_new, 1, "{t:?}");
    }
    lent.spoilt()
}

#[test]
fn the_last_of_all_leaves_what_opening_leaves() {
    for t in [[10, 5, 20], [10, 5, 10], [10, 0, 8], [8, 1, 9], [5, 3, 8], [8, 5, 9], [8, 5, 20]] {
        let mut lent = fed(&[t]);
        assert_eq!(lent.counts, [1, 1]);
        assert_eq!(lent.remove(&RDFS.0, &roster(), t), 0, "{t:?}");
        assert_eq!((&lent.triples, &lent.summary, &lent.weights), (&vec![0; 15], &vec![0; 16], &vec![0; 5]));
        assert_eq!((&lent.map, lent.counts), (&vec![ABSENT; 24], [0, 0]));
        assert_eq!(lent, Lent { work: vec![0; 48], place: 0, ..opened() }, "{t:?}");
    }
}

#[test]
fn behind_what_is_left_all_is_zero() {
    let mut lent = fed(&[[10, 0, 8], [10, 5, 20], [11, 0, 9], [11, 5, 21]]);
    assert_eq!(lent.summary, [10, 0, 8, 10, 0, 9, 10, 5, 20, 0, 0, 0, 0, 0, 0, 0]);
    assert_eq!(lent.weights, [1, 1, 2, 0, 0]);
    // 11 keeps its type: it goes to a class of its own, and 21 is no node.
    assert_eq!(lent.remove(&RDFS.0, &roster(), [11, 5, 21]), 0);
    assert_eq!((lent.place, lent.counts), (3, [3, 3]));
    assert_eq!(lent.triples, [10, 0, 8, 10, 5, 20, 11, 0, 9, 0, 0, 0, 0, 0, 0]);
    assert_eq!(lent.summary, [10, 0, 8, 10, 5, 20, 11, 0, 9, 0, 0, 0, 0, 0, 0, 0]);
    assert_eq!(lent.weights, [1, 1, 1, 0, 0]);
    // 10 keeps its data, 8 is no node.
    assert_eq!(lent.remove(&RDFS.0, &roster(), [10, 0, 8]), 0);
    assert_eq!((lent.place, lent.counts), (0, [2, 2]));
    assert_eq!(lent.triples, [10, 5, 20, 11, 0, 9, 0, 0, 0, 0, 0, 0, 0, 0, 0]);
    assert_eq!(lent.summary, [10, 5, 20, 11, 0, 9, 0, 0, 0, 0, 0, 0, 0, 0, 0, 0]);
    assert_eq!(lent.weights, [1, 1, 0, 0, 0]);
    assert_eq!(lent.map, map_with(24, &[(9, 9), (10, 10), (11, 11), (20, 20)]));
}

#[test]
fn behind_the_lines_that_stay_all_is_zero() {
    // The others keep the ends of 10 0 8, and only its line goes.
    let mut lent = fed(&[[8, 1, 9], [10, 0, 8], [10, 5, 20], [11, 5, 20]]);
    assert_eq!(lent.weights, [1, 1, 2, 0, 0]);
    let map = lent.map.clone();
    assert_eq!(lent.remove(&RDFS.0, &roster(), [10, 0, 8]), 0);
    assert_eq!((lent.place, lent.counts), (1, [3, 2]));
    assert_eq!(lent.triples, [8, 1, 9, 10, 5, 20, 11, 5, 20, 0, 0, 0, 0, 0, 0]);
    assert_eq!(lent.summary, [8, 1, 9, 10, 5, 20, 0, 0, 0, 0, 0, 0, 0, 0, 0, 0]);
    assert_eq!(lent.weights, [1, 2, 0, 0, 0]);
    assert_eq!((lent.map, lent.work), (map, vec![0; 48]));
}

/// Triples held together, a triple that is then fed and removed, and its place.
const FED_AND_REMOVED: [(&[Triple], Triple, usize); 7] = [
    (&[], [10, 5, 20], 0),
    (&[[10, 5, 20]], [10, 5, 21], 1),
    (&[[10, 5, 20], [11, 5, 21]], [10, 5, 21], 1),
    (&[[10, 5, 20], [20, 6, 21]], [20, 5, 10], 1),
    (&[[10, 0, 8], [11, 0, 8]], [10, 5, 11], 1),
    (&[[10, 0, 8], [11, 0, 9], [12, 6, 13]], [11, 6, 12], 2),
    (&[[10, 5, 20], [11, 6, 20], [12, 7, 20], [13, 5, 14]], [9, 0, 8], 0),
];

#[test]
fn fed_and_removed_leaves_what_was_there() {
    for (table, t, place) in FED_AND_REMOVED {
        let before = fed(table);
        let mut lent = before.clone();
        assert_eq!(lent.feed(&RDFS.0, &roster(), t), 0, "{t:?}");
        assert_eq!((lent.is_new, lent.place), (1, place), "{t:?}");
        let mut lent = lent.spoilt();
        assert_eq!(lent.remove(&RDFS.0, &roster(), t), 0, "{t:?}");
        assert_eq!(lent, Lent { work: vec![0; 48], place, ..before }, "{t:?}");
    }
}

#[test]
fn removed_twice() {
    let mut lent = fed(&[[10, 5, 20], [11, 5, 20], [11, 6, 21]]);
    for t in [[11, 5, 20], [11, 6, 21], [10, 5, 20]] {
        assert_eq!(lent.remove(&RDFS.0, &roster(), t), 0, "{t:?}");
        let before = lent.spoilt();
        lent = before.clone();
        assert_eq!(lent.remove(&RDFS.0, &roster(), t), 9, "{t:?}");
        assert_eq!(lent, Lent { place: 0, ..before }, "{t:?}");
    }
}

#[test]
fn a_slot_set_free_takes_a_later_triple() {
    let full = [[10, 5, 20], [10, 6, 21], [11, 5, 20], [11, 6, 22], [12, 7, 20]];
    for (i, t) in full.into_iter().enumerate() {
        let before = fed(&full);
        let mut lent = before.clone();
        assert_eq!(lent.feed(&RDFS.0, &roster(), [13, 5, 23]), 7);
        assert_eq!(lent, Lent { place: 0, ..before });
        assert_eq!(lent.remove(&RDFS.0, &roster(), t), 0);
        assert_eq!((lent.place, lent.counts[0]), (i, 4));
        assert_eq!(lent.feed(&RDFS.0, &roster(), [13, 5, 23]), 0);
        assert_eq!((lent.is_new, lent.place, lent.counts[0]), (1, 4, 5));
        assert_eq!(lent.triples[12..], [13, 5, 23]);
        let before = lent.clone();
        assert_eq!(lent.feed(&RDFS.0, &roster(), t), 7);
        assert_eq!(lent, Lent { place: 0, ..before });
    }
}

#[test]
fn an_intake_without_slots_holds_nothing() {
    let mut before = Lent::nines([2, 0, 0]);
    assert_eq!(before.open(&RDFS.0, &roster()), 0);
    let mut lent = before.clone();
    assert_eq!(lent.remove(&RDFS.0, &roster(), [10, 5, 20]), 9);
    assert_eq!(lent, Lent { place: 0, ..before });
}

/// Removes a triple from lists that are right or not, and checks that it is refused so and that only the place is altered.
fn refused(before: &Lent, words: &[u32], roster: &[u8], t: Triple, refusal: u32) {
    let mut lent = before.clone();
    assert_eq!(lent.remove(words, roster, t), refusal, "{words:?} {t:?}");
    assert_eq!(lent, Lent { place: 0, ..before.clone() }, "{words:?} {t:?}");
}

/// Triples that are held, not held, not covered, and of wrong codes, the last two reasons also together, and what each is refused
/// with where all else is right.
const TRIPLES: [(Triple, u32); 9] = [
    ([10, 5, 20], 0),
    ([10, 5, 21], 9),
    ([10, 0, 8], 9),
    ([10, 9, 20], 4),
    ([10, 0, 20], 4),
    ([24, 5, 20], 3),
    ([10, 24, 20], 3),
    ([10, 5, 4], 3),
    ([0, 9, 20], 3),
];

#[test]
fn checks_come_in_order() {
    let before = fed(&[[10, 5, 20], [11, 5, 20]]);
    let right = roster();
    let (mut marked, mut over) = (right.clone(), right.clone());
    (marked[4], over[23]) = (1, 4);
    let mut short = before.clone();
    short.work.truncate(47);
    let equal = [0, 1, 2, 3, 3];
    for (t, alone) in TRIPLES {
        for roster in [&right, &marked, &over] {
            refused(&before, &RDFS.0[..4], roster, t, 1);
            refused(&short, &RDFS.0, roster, t, 1);
            refused(&short, &equal, roster, t, 1);
            refused(&before, &equal, roster, t, 10);
        }
        refused(&before, &RDFS.0, &marked, t, 2);
        refused(&before, &RDFS.0, &over, t, 2);
        if alone != 0 {
            refused(&before, &RDFS.0, &right, t, alone);
        }
    }
    let mut lent = before.clone();
    assert_eq!(lent.remove(&RDFS.0, &right, TRIPLES[0].0), 0);
    assert_eq!((lent.place, lent.counts), (0, [1, 1]));
}

#[test]
fn lists_of_wrong_lengths_come_first() {
    let before = fed(&[[10, 5, 20], [11, 5, 20]]);
    let shorten: [fn(&mut Lent); 9] = [
        |lent| lent.work.truncate(47),
        |lent| lent.work.push(9),
        |lent| lent.work.clear(),
        |lent| lent.map.truncate(23),
        |lent| lent.map.push(9),
        |lent| lent.weights.truncate(4),
        |lent| lent.weights.push(0),
        |lent| lent.triples.truncate(14),
        |lent| lent.summary.extend([0; 2]),
    ];
    for damage in shorten {
        let mut damaged = before.clone();
        damage(&mut damaged);
        for (t, _) in TRIPLES {
            refused(&damaged, &RDFS.0, &roster(), t, 1);
        }
    }
    for n in [4, 23, 25] {
        refused(&before, &RDFS.0, &vec![0; n], [10, 5, 20], 1);
    }
}

#[test]
fn a_feed_never_misses_and_a_removal_is_never_full() {
    let mut lent = fed(&[[10, 5, 20], [10, 6, 21], [11, 5, 20], [11, 6, 22], [12, 7, 20]]);
    assert_eq!(lent.remove(&RDFS.0, &roster(), [13, 5, 20]), 9);
    assert_eq!(lent.feed(&RDFS.0, &roster(), [13, 5, 20]), 7);
    assert_eq!(lent.remove(&RDFS.0, &roster(), [12, 7, 20]), 0);
    assert_eq!(lent.remove(&RDFS.0, &roster(), [12, 7, 20]), 9);
    assert_eq!(lent.feed(&RDFS.0, &roster(), [12, 7, 20]), 0);
}
