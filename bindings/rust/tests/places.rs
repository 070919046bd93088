//! Where a triple belongs: the places that look up and feeds report.

mod common;

use common::{map_with, roster_of, RDFS, SIX, SIX_SATURATED};
use weak_summary::{calls, look_up, Intake, Refusal, Triple};

/// Five triples that may be fed with the roster of the six, in rising order.
const RISING: [Triple; 5] = [[10, 5, 12], [10, 5, 13], [10, 7, 11], [11, 5, 10], [12, 6, 10]];

/// An empty intake for them with this many slots.
fn intake(slots: usize) -> Intake {
    Intake::open(RDFS, &roster_of(RDFS, &SIX, 14), slots).unwrap()
}

#[test]
fn every_triple_of_a_rising_list_stands_at_its_place() {
    for (i, t) in SIX_SATURATED.chunks_exact(3).enumerate() {
        assert_eq!(look_up(&SIX_SATURATED, [t[0], t[1], t[2]]), Ok((true, i)));
    }
    assert_eq!(look_up(&SIX_SATURATED, [10, 6, 12]), Ok((false, 12)));
    assert_eq!(look_up(&SIX_SATURATED, [10, 7, 12]), Ok((true, 12)));
    assert_eq!(look_up(&SIX_SATURATED, [10, 7, 13]), Ok((false, 13)));
}

#[test]
fn unsorted_lists_with_repeats() {
    // 5 2 7 stands in it three times, 6 2 7 twice, 7 3 8 three times, 9 1 5 twice, and 9 9 9 once.
    let list = [
        [7, 3, 8],
        [9, 1, 5],
        [5, 2, 7],
        [7, 3, 8],
        [6, 2, 7],
        [9, 9, 9],
        [5, 2, 7],
        [7, 3, 8],
        [6, 2, 7],
        [5, 2, 7],
        [9, 1, 5],
    ];
    let held = [([5, 2, 7], 0), ([6, 2, 7], 3), ([7, 3, 8], 5), ([9, 1, 5], 8), ([9, 9, 9], 10)];
    for (t, place) in held {
        assert_eq!(look_up(&list.concat(), t), Ok((true, place)), "{t:?}");
    }
    let others = [
        ([0, 0, 0], 0),
        ([5, 2, 6], 0),
        ([5, 2, 8], 3),
        ([6, 9, 0], 5),
        ([7, 2, u32::MAX], 5),
        ([7, 3, 7], 5),
        ([7, 3, 9], 8),
        ([7, 4, 0], 8),
        ([8, 0, 0], 8),
        ([9, 9, 10], 11),
        ([u32::MAX, 0, 0], 11),
    ];
    for (t, place) in others {
        assert_eq!(look_up(&list.concat(), t), Ok((false, place)), "{t:?}");
    }
}

#[test]
fn equal_triples_and_no_triples() {
    let equal = [5, 2, 7].repeat(4);
    assert_eq!(look_up(&equal, [5, 2, 6]), Ok((false, 0)));
    assert_eq!(look_up(&equal, [5, 2, 7]), Ok((true, 0)));
    assert_eq!(look_up(&equal, [5, 2, 8]), Ok((false, 4)));
    assert_eq!(look_up(&[], [u32::MAX; 3]), Ok((false, 0)));
    assert_eq!(look_up(&[u32::MAX; 6], [u32::MAX; 3]), Ok((true, 0)));
    assert_eq!(look_up(&[u32::MAX, u32::MAX, 0], [u32::MAX; 3]), Ok((false, 1)));
}

#[test]
fn the_largest_place() {
    let list = vec![5; 3 * 1_048_576];
    assert_eq!(look_up(&list, [5, 5, 6]), Ok((false, 1_048_576)));
}

#[test]
fn a_refused_look_up_reports_place_0() {
    let long = vec![5; 3 * 1_048_577];
    let lists: [&[u32]; 5] = [&[5], &[5, 2], &[5, 2, 7, 6], &[5, 2, 7, 6, 2], &long];
    for list in lists {
        for t in [[5, 2, 7], [9, 9, 9]] {
            let (mut found, mut place) = (7, 7);
            assert_eq!(calls::look_up(list, t[0], t[1], t[2], &mut found, &mut place), 1);
            assert_eq!((found, place), (7, 0));
        }
    }
}

#[test]
fn an_accepted_look_up_writes_both_numbers() {
    for (t, answer) in [([6, 2, 7], (1, 1)), ([5, 2, 7], (1, 0)), ([0, 0, 0], (0, 0)), ([7, 0, 0], (0, 2))] {
        let (mut found, mut place) = (7, 7);
        assert_eq!(calls::look_up(&[6, 2, 7, 5, 2, 7], t[0], t[1], t[2], &mut found, &mut place), 0);
        assert_eq!((found, place), answer);
    }
}

#[test]
fn feeds_in_rising_order() {
    let mut intake = intake(6);
    let places = RISING.map(|t| intake.feed(t));
    assert_eq!(places, [Ok((true, 0)), Ok((true, 1)), Ok((true, 2)), Ok((true, 3)), Ok((true, 4))]);
    assert_eq!(intake.feed([10, 7, 11]), Ok((false, 2)));
    assert_eq!(intake.feed([10, 5, 12]), Ok((false, 0)));
    assert_eq!(intake.feed([12, 6, 10]), Ok((false, 4)));
    assert_eq!(intake.feed([10, 6, 13]), Ok((true, 2)));
    assert_eq!(intake.feed([10, 7, 11]), Ok((false, 3)));
    assert_eq!(intake.feed([12, 6, 10]), Ok((false, 5)));
    assert_eq!(intake.triples()[6..9], [10, 6, 13]);
}

#[test]
fn feeds_in_falling_order() {
    let mut intake = intake(5);
    for t in RISING.into_iter().rev() {
        assert_eq!(intake.feed(t), Ok((true, 0)));
    }
    let places = RISING.map(|t| intake.feed(t));
    assert_eq!(places, [Ok((false, 0)), Ok((false, 1)), Ok((false, 2)), Ok((false, 3)), Ok((false, 4))]);
    assert_eq!(intake.triples(), RISING.concat());
}

#[test]
fn a_full_intake_reports_the_place_of_a_repeat_only() {
    let mut intake = intake(2);
    assert_eq!(intake.feed([11, 6, 13]), Ok((true, 0)));
    assert_eq!(intake.feed([12, 6, 13]), Ok((true, 1)));
    assert_eq!(intake.feed([13, 6, 13]), Err(Refusal::Full));
    assert_eq!(intake.feed([12, 6, 13]), Ok((false, 1)));
    assert_eq!(intake.feed([11, 6, 13]), Ok((false, 0)));
}

/// Feeds a triple to an intake of two slots that holds 11 6 13 and 12 6 13, with junk in both numbers; the status and these numbers.
fn fed(t: Triple, roster: &[u8], work_length: usize) -> (u32, u32, usize) {
    let mut lists = [vec![11, 6, 13, 12, 6, 13], vec![11, 6, 13, 0, 0, 0], vec![2, 0]];
    let mut map = map_with(14, &[(11, 11), (12, 11), (13, 13)]);
    let mut work = vec![7; work_length];
    let (mut held, mut summarised, mut is_new, mut place) = (2, 1, 7, 7);
    let [triples, summary, weights] = &mut lists;
    let (held, summarised) = (&mut held, &mut summarised);
    let state = calls::State { triples, summary, weights, map: &mut map, held, summarised };
    let lent = calls::Lent { words: &RDFS.0, roster, state, work: &mut work };
    let status = calls::feed(lent, t, &mut is_new, &mut place);
    (status, is_new, place)
}

#[test]
fn every_refused_feed_reports_place_0() {
    let roster = roster_of(RDFS, &SIX, 14);
    let mut marked = roster.clone();
    marked[3] = 1;
    let behind = [13, 6, 13];
    assert_eq!(fed(behind, &roster, 27), (1, 7, 0));
    assert_eq!(fed(behind, &roster[..13], 28), (1, 7, 0));
    assert_eq!(fed(behind, &marked, 28), (2, 7, 0));
    assert_eq!(fed([13, 6, 14], &roster, 28), (3, 7, 0));
    assert_eq!(fed([13, 6, 0], &roster, 28), (3, 7, 0));
    assert_eq!(fed([13, 8, 13], &roster, 28), (4, 7, 0));
    assert_eq!(fed(behind, &roster, 28), (7, 7, 0));
    assert_eq!(fed([12, 6, 13], &roster, 28), (0, 0, 1));
}
