//! How many triples each line of an intake's summary stands for.

mod common;

use common::{lines, roster_of, Lent, Line, RDFS, SIX_SATURATED, SIX_SUMMARY};
use weak_summary::{Intake, Refusal, Triple, Words, ABSENT};

/// Type at 310; codes 0 to 4 are free. N is 311.
const RESORT: Words = Words([310, 5, 6, 7, 8]);

/// An empty intake with the own roster of these triples and a slot for each.
fn intake_for(words: Words, table: &[Triple]) -> Intake {
    Intake::open(words, &roster_of(words, &table.concat(), 311), table.len()).unwrap()
}

/// Feeds the triples, each new, to an intake for them; after each, the lines must be those beside it.
fn grows(words: Words, steps: &[(Triple, &[Line])]) {
    let table: Vec<Triple> = steps.iter().map(|&(t, _)| t).collect();
    let mut intake = intake_for(words, &table);
    assert_eq!(intake.weights(), [0; 0]);
    for (t, expected) in steps {
        assert!(intake.feed(*t).unwrap().0, "{t:?}");
        assert_eq!(lines(&intake), *expected, "{t:?}");
        assert!(!intake.feed(*t).unwrap().0, "{t:?}");
        assert_eq!(lines(&intake), *expected, "{t:?} again");
    }
}

#[test]
fn no_triples_no_weights() {
    for slots in [0, 1, 3] {
        let intake = Intake::open(RDFS, &[0; 5], slots).unwrap();
        assert_eq!((intake.summary(), intake.weights()), (&[][..], &[][..]));
    }
}

#[test]
fn one_triple_and_its_repeats() {
    let mut intake = intake_for(RDFS, &[[10, 5, 20]]);
    assert_eq!(intake.weights(), [0; 0]);
    assert_eq!(intake.feed([10, 5, 20]), Ok((true, 0)));
    assert_eq!(lines(&intake), [([10, 5, 20], 1)]);
    for _ in 0..3 {
        assert_eq!(intake.feed([10, 5, 20]), Ok((false, 0)));
        assert_eq!(lines(&intake), [([10, 5, 20], 1)]);
    }
}

#[test]
fn a_line_takes_what_joins_its_classes() {
    // A chain is one class; then a smaller code takes its place.
    grows(
        RDFS,
        &[
            ([10, 5, 11], &[([10, 5, 11], 1)]),
            ([11, 5, 12], &[([10, 5, 10], 2)]),
            ([12, 5, 10], &[([10, 5, 10], 3)]),
            ([9, 5, 9], &[([9, 5, 9], 4)]),
        ],
    );
}

#[test]
fn weights_add_up_where_classes_merge() {
    // 10 has 5 and 6 in the end, so 11 is put with 10, and 22 with 21.
    grows(
        RDFS,
        &[
            ([10, 5, 20], &[([10, 5, 20], 1)]),
            ([11, 6, 21], &[([10, 5, 20], 1), ([11, 6, 21], 1)]),
            ([10, 6, 22], &[([10, 5, 20], 1), ([10, 6, 21], 2)]),
        ],
    );
    // In the end 11 is put with 10, and their types become one line; 8 is marked and stays apart.
    grows(
        RDFS,
        &[
            ([10, 5, 30], &[([10, 5, 30], 1)]),
            ([8, 5, 31], &[([8, 5, 30], 1), ([10, 5, 30], 1)]),
            ([12, 5, 31], &[([8, 5, 30], 1), ([10, 5, 30], 2)]),
            ([12, 0, 8], &[([8, 5, 30], 1), ([10, 0, 8], 1), ([10, 5, 30], 2)]),
            ([11, 6, 40], &[([8, 5, 30], 1), ([10, 0, 8], 1), ([10, 5, 30], 2), ([11, 6, 40], 1)]),
            ([11, 0, 8], &[([8, 5, 30], 1), ([10, 0, 8], 1), ([10, 5, 30], 2), ([11, 0, 8], 1), ([11, 6, 40], 1)]),
            ([10, 6, 41], &[([8, 5, 30], 1), ([10, 0, 8], 2), ([10, 5, 30], 2), ([10, 6, 40], 2)]),
        ],
    );
}

#[test]
fn a_line_loses_what_leaves_its_class() {
    // 10 and 11 have types only and are one, until one of them has data.
    grows(
        RDFS,
        &[
            ([10, 0, 8], &[([10, 0, 8], 1)]),
            ([11, 0, 8], &[([10, 0, 8], 2)]),
            ([10, 5, 12], &[([10, 0, 8], 1), ([10, 5, 12], 1), ([11, 0, 8], 1)]),
        ],
    );
    grows(
        RDFS,
        &[
            ([10, 0, 8], &[([10, 0, 8], 1)]),
            ([11, 0, 8], &[([10, 0, 8], 2)]),
            ([12, 0, 8], &[([10, 0, 8], 3)]),
            ([12, 0, 9], &[([10, 0, 8], 3), ([10, 0, 9], 1)]),
            ([20, 5, 12], &[([10, 0, 8], 2), ([12, 0, 8], 1), ([12, 0, 9], 1), ([20, 5, 12], 1)]),
        ],
    );
}

#[test]
fn lines_between_others_move_the_weights() {
    grows(
        RDFS,
        &[
            ([20, 5, 30], &[([20, 5, 30], 1)]),
            ([21, 5, 30], &[([20, 5, 30], 2)]),
            ([20, 0, 9], &[([20, 0, 9], 1), ([20, 5, 30], 2)]),
            ([20, 0, 8], &[([20, 0, 8], 1), ([20, 0, 9], 1), ([20, 5, 30], 2)]),
            ([21, 0, 9], &[([20, 0, 8], 1), ([20, 0, 9], 2), ([20, 5, 30], 2)]),
            ([8, 1, 9], &[([8, 1, 9], 1), ([20, 0, 8], 1), ([20, 0, 9], 2), ([20, 5, 30], 2)]),
            ([5, 3, 8], &[([5, 3, 8], 1), ([8, 1, 9], 1), ([20, 0, 8], 1), ([20, 0, 9], 2), ([20, 5, 30], 2)]),
        ],
    );
}

#[test]
fn other_words() {
    // 0 and 1 are properties here, 4 is a class, and type is 310.
    grows(
        RESORT,
        &[
            ([20, 310, 4], &[([20, 310, 4], 1)]),
            ([21, 310, 4], &[([20, 310, 4], 2)]),
            ([20, 0, 30], &[([20, 0, 30], 1), ([20, 310, 4], 1), ([21, 310, 4], 1)]),
            ([21, 1, 31], &[([20, 0, 30], 1), ([20, 310, 4], 1), ([21, 1, 31], 1), ([21, 310, 4], 1)]),
            ([20, 1, 32], &[([20, 0, 30], 1), ([20, 1, 31], 2), ([20, 310, 4], 2)]),
        ],
    );
}

#[test]
fn the_six_saturated_in_every_turn() {
    let table: Vec<Triple> = SIX_SATURATED.chunks_exact(3).map(|t| [t[0], t[1], t[2]]).collect();
    for turn in 0..table.len() {
        let mut intake = intake_for(RDFS, &table);
        for i in 0..table.len() {
            assert!(intake.feed(table[(i + turn) % table.len()]).unwrap().0);
            assert_eq!(intake.weights().iter().sum::<u32>() as usize, i + 1);
        }
        assert_eq!(intake.summary(), SIX_SUMMARY);
        assert_eq!(intake.weights(), [1, 1, 1, 1, 1, 1, 1, 1, 1, 2, 2, 1, 1, 2]);
    }
}

#[test]
fn a_line_of_ten_thousand() {
    let ends = || (100..200).flat_map(|s| (200..300).map(move |o| [s, 5, o]));
    let mut roster = vec![0; 311];
    roster[5] = 2;
    let mut intake = Intake::open(RDFS, &roster, 10_000).unwrap();
    for (i, t) in ends().enumerate() {
        assert_eq!(intake.feed(t), Ok((true, i)));
    }
    assert_eq!(lines(&intake), [([100, 5, 200], 10_000)]);
    assert_eq!(intake.feed([150, 5, 250]), Ok((false, 5_050)));
    assert_eq!(intake.feed([100, 5, 100]), Err(Refusal::Full));
    assert_eq!(lines(&intake), [([100, 5, 200], 10_000)]);
}

/// A roster of 24 codes for the properties 5, 6 and 7 and the class 8.
fn roster() -> Vec<u8> {
    roster_of(RDFS, &[10, 5, 11, 10, 6, 11, 10, 7, 11, 10, 0, 8], 24)
}

/// Feeds triples that are all accepted.
fn feed_all(lent: &mut Lent, table: &[Triple]) {
    for &t in table {
        assert_eq!(lent.feed(&RDFS.0, &roster(), t), 0, "{t:?}");
    }
}

#[test]
fn opening_zeroes_the_weights() {
    for junk in [0, 1, 9, u32::MAX] {
        let mut lent = Lent::nines([15, 15, 5]);
        lent.weights.fill(junk);
        assert_eq!(lent.open(&RDFS.0, &roster()), 0);
        assert_eq!((lent.weights, lent.counts, lent.map), (vec![0; 5], [0, 0], vec![ABSENT; 24]));
    }
}

#[test]
fn past_the_last_line_the_weights_are_zero() {
    let mut lent = Lent::nines([18, 18, 6]);
    assert_eq!(lent.open(&RDFS.0, &roster()), 0);
    feed_all(&mut lent, &[[10, 0, 8], [11, 0, 8], [10, 5, 20], [11, 6, 21]]);
    assert_eq!(lent.counts, [4, 4]);
    assert_eq!(lent.summary, [10, 0, 8, 10, 5, 20, 11, 0, 8, 11, 6, 21, 0, 0, 0, 0, 0, 0]);
    assert_eq!(lent.weights, [1, 1, 1, 1, 0, 0]);
    // 10 and 11 become one, and their two types one line.
    feed_all(&mut lent, &[[10, 6, 22]]);
    assert_eq!(lent.counts, [5, 3]);
    assert_eq!(lent.summary, [10, 0, 8, 10, 5, 20, 10, 6, 21, 0, 0, 0, 0, 0, 0, 0, 0, 0]);
    assert_eq!(lent.weights, [2, 1, 2, 0, 0, 0]);
    // 21 and 22 join them.
    feed_all(&mut lent, &[[22, 6, 10]]);
    assert_eq!(lent.counts, [6, 3]);
    assert_eq!(lent.summary, [10, 0, 8, 10, 5, 20, 10, 6, 10, 0, 0, 0, 0, 0, 0, 0, 0, 0]);
    assert_eq!(lent.weights, [2, 1, 3, 0, 0, 0]);
}

#[test]
fn slots_are_rounded_down() {
    for [triples, summary] in [[6, 6], [7, 8], [8, 7], [6, 8]] {
        let mut lent = Lent::nines([triples, summary, 2]);
        assert_eq!(lent.open(&RDFS.0, &roster()), 0);
        feed_all(&mut lent, &[[10, 5, 20], [10, 6, 21]]);
        assert_eq!(lent.summary[..6], [10, 5, 20, 10, 6, 21]);
        assert!(lent.summary[6..].iter().chain(&lent.triples[6..]).all(|&x| x == 0));
        assert_eq!(lent.weights, [1, 1]);
        for weights in [0, 1, 3, 6, 7, 8] {
            let mut lent = Lent::nines([triples, summary, weights]);
            assert_eq!(lent.open(&RDFS.0, &roster()), 1, "{weights} weights");
        }
    }
}

#[test]
fn opening_refuses_weights_of_another_size_first() {
    let (right, wrong_roster) = (roster(), [4; 24]);
    for weights in [0, 1, 3, 6, 7] {
        for (words, roster) in [(RDFS.0, &right[..]), (RDFS.0, &wrong_roster), ([0, 1, 2, 3, 3], &right)] {
            let mut lent = Lent::nines([6, 6, weights]);
            assert_eq!(lent.open(&words, roster), 1, "{weights} weights");
            assert_eq!(lent, Lent::nines([6, 6, weights]));
        }
    }
    for (words, roster, refusal) in [(RDFS.0, &wrong_roster[..], 2), ([0, 1, 2, 3, 3], &wrong_roster, 10)] {
        let mut lent = Lent::nines([6, 6, 2]);
        assert_eq!(lent.open(&words, roster), refusal);
        assert_eq!(lent, Lent::nines([6, 6, 2]));
    }
}

/// An intake of three slots that holds two triples of one line, with nines in the work list and the answers.
fn holding_two() -> Lent {
    let mut lent = Lent::nines([9, 9, 3]);
    assert_eq!(lent.open(&RDFS.0, &roster()), 0);
    feed_all(&mut lent, &[[10, 5, 20], [11, 5, 20]]);
    assert_eq!(lent.weights, [2, 0, 0]);
    lent.spoilt()
}

#[test]
fn a_feed_refuses_weights_of_another_size_first() {
    let (right, wrong_roster) = (roster(), [4; 24]);
    for weights in [0, 1, 2, 4, 9] {
        let mut before = holding_two();
        before.weights.resize(weights, 9);
        for (words, roster) in [(RDFS.0, &right[..]), (RDFS.0, &wrong_roster), ([0, 1, 2, 3, 3], &right)] {
            for t in [[10, 5, 20], [10, 5, 21], [10, 5, 0], [10, 9, 20]] {
                let mut lent = before.clone();
                assert_eq!(lent.feed(&words, roster, t), 1, "{weights} weights, {t:?}");
                assert_eq!(lent, Lent { place: 0, ..before.clone() });
            }
        }
    }
}

#[test]
fn refusals_and_repeats_leave_the_weights() {
    let before = holding_two();
    let mut marked = roster();
    marked[4] = 1;
    let refused: [([u32; 5], Vec<u8>, Triple, u32); 4] = [
        ([0, 1, 2, 3, 3], roster(), [12, 5, 20], 10),
        (RDFS.0, marked, [12, 5, 20], 2),
        (RDFS.0, roster(), [12, 5, 24], 3),
        (RDFS.0, roster(), [12, 9, 20], 4),
    ];
    for (words, roster, t, refusal) in refused {
        let mut lent = before.clone();
        assert_eq!(lent.feed(&words, &roster, t), refusal);
        assert_eq!(lent, Lent { place: 0, ..before.clone() });
    }
    let mut lent = before.clone();
    assert_eq!(lent.feed(&RDFS.0, &roster(), [11, 5, 20]), 0);
    assert_eq!(lent, Lent { work: vec![0; 48], is_new: 0, place: 1, ..before });
}

#[test]
fn a_full_intake_keeps_its_weights() {
    let mut before = holding_two();
    feed_all(&mut before, &[[10, 6, 21]]);
    assert_eq!(before.weights, [2, 1, 0]);
    for t in [[12, 5, 20], [11, 6, 21], [12, 7, 22]] {
        let mut lent = before.clone();
        assert_eq!(lent.feed(&RDFS.0, &roster(), t), 7, "{t:?}");
        assert_eq!(lent, Lent { place: 0, ..before.clone() });
    }
    for (t, place) in [([10, 5, 20], 0), ([10, 6, 21], 1), ([11, 5, 20], 2)] {
        let mut lent = before.clone();
        assert_eq!(lent.feed(&RDFS.0, &roster(), t), 0, "{t:?}");
        assert_eq!(lent, Lent { is_new: 0, place, ..before.clone() });
    }
}

#[test]
fn an_intake_opened_again_starts_at_nothing() {
    let mut lent = holding_two();
    assert_eq!(lent.open(&RDFS.0, &roster()), 0);
    assert_eq!((&lent.weights[..], lent.counts), (&[0; 3][..], [0, 0]));
    feed_all(&mut lent, &[[11, 5, 20]]);
    assert_eq!((&lent.weights[..], lent.counts), (&[1, 0, 0][..], [1, 1]));
}
