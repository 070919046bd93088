//! The slots that a weak summary may need: small tables, and result lists cut to just so many.

mod common;

use common::{roster_of, saturation_of, summary_of, RDFS, SIX, SIX_SATURATED, SIX_SUMMARY};
use weak_summary::{slots_bound, summarise, summarise_strong, Refusal, Words};

/// The number of lines of the weak summary in a list of so many numbers, which is zero behind them.
fn lines_in(numbers: usize, table: &[u32], roster: &[u8]) -> Result<usize, Refusal> {
    let n = roster.len();
    let (mut result, mut map, mut work) = (vec![9; numbers], vec![9; n], vec![9; 2 * n]);
    let count = summarise(RDFS, table, roster, &mut result, &mut map, &mut work)?;
    assert!(result[3 * count..].iter().all(|&x| x == 0));
    Ok(count)
}

/// That the number is this one, that lists of so many slots take the summary, which has so many lines, and that one slot fewer than
/// lines is refused.
fn check(table: &[u32], roster: &[u8], slots: usize, lines: usize) {
    assert_eq!(slots_bound(RDFS, table, roster), slots, "{table:?}");
    for more in 0..3 {
        assert_eq!(lines_in(3 * slots + more, table, roster), Ok(lines), "{table:?} {more}");
    }
    if lines > 0 {
        assert_eq!(lines_in(3 * lines - 1, table, roster), Err(Refusal::Slots), "{table:?}");
    }
}

/// Tables with their own rosters, N 24: the slots, and the lines of the summary.
const TABLES: [(&[u32], usize, usize); 10] = [
    (&[], 0, 0),
    (&[10, 5, 10], 1, 1),
    (&[10, 5, 11, 11, 5, 12], 1, 1),
    // No marked ends: a line for each of three properties.
    (&[10, 5, 20, 10, 6, 21, 11, 6, 22, 11, 7, 23], 3, 3),
    // A class as a subject: fewer triples than cells.
    (&[10, 0, 8, 8, 5, 12, 8, 6, 13], 3, 3),
    // A class at both sides: six triples in four cells, and the type.
    (&[10, 0, 8, 8, 5, 8, 8, 5, 12, 8, 5, 13, 11, 5, 8, 11, 5, 12, 11, 5, 13], 5, 5),
    // Repeats count once.
    (&[10, 5, 11, 10, 0, 8, 10, 5, 11, 10, 0, 8], 2, 2),
    // Type triples have a slot each, though they may have one line.
    (&[10, 0, 8, 11, 0, 8], 2, 1),
    // Schema triples.
    (&[5, 2, 6, 5, 3, 8, 6, 4, 8, 8, 1, 9], 4, 4),
    (&SIX, 6, 6),
];

#[test]
fn small_tables() {
    for (table, slots, lines) in TABLES {
        check(table, &roster_of(RDFS, table, 24), slots, lines);
    }
}

/// Two of five subjects are marked by the roster that is lent, though the table does not ask for it.
#[test]
fn more_marks_than_needed() {
    let table = [8, 5, 20, 9, 5, 20, 10, 5, 20, 11, 5, 20, 12, 5, 20];
    let mut roster = roster_of(RDFS, &table, 24);
    check(&table, &roster, 1, 1);
    (roster[8], roster[9]) = (1, 1);
    check(&table, &roster, 3, 3);
    // Five triples, and six cells, of which those for unmarked objects stay empty.
    roster[20] = 3;
    check(&table, &roster, 5, 3);
}

/// The saturation has 9 triples, the types 10 0 8 and 11 0 8 and the data 10 6 20 and 11 6 21 among them.
#[test]
fn summary_of_a_saturation() {
    let table = [5, 2, 6, 5, 3, 8, 10, 5, 20, 11, 5, 21, 12, 6, 22];
    let roster = roster_of(RDFS, &table, 24);
    let saturation = saturation_of(RDFS, &table, 24, 9).unwrap();
    assert_eq!(saturation.len(), 27);
    check(&saturation, &roster, 6, 5);
    assert_eq!(summary_of(RDFS, &saturation, 24).0, [5, 2, 6, 5, 3, 8, 10, 0, 8, 10, 5, 20, 10, 6, 20]);
    // The number for the table before it is too low.
    assert_eq!(slots_bound(RDFS, &table, &roster), 4);
    assert_eq!(lines_in(3 * 4, &saturation, &roster), Err(Refusal::Slots));
}

/// Of 17 triples three properties need a slot each, and 13 are schema and type triples.
#[test]
fn summary_of_the_six() {
    let roster = roster_of(RDFS, &SIX, 14);
    check(&SIX_SATURATED, &roster, 16, SIX_SUMMARY.len() / 3);
}

/// Without 11 5 12 the node 11 has a type only and is no longer with 10: the summary is longer, and the number does not grow.
#[test]
fn part_of_a_table() {
    let table = [10, 0, 8, 11, 0, 8, 10, 5, 12, 11, 5, 12];
    let roster = roster_of(RDFS, &table, 24);
    check(&table, &roster, 3, 2);
    check(&table[..9], &roster, 3, 3);
    check(&table[..6], &roster, 2, 1);
}

/// Two objects of one property have different source cliques: strongly they are apart.
#[test]
fn strong_summary_may_need_more() {
    let table = [10, 5, 20, 11, 5, 21, 21, 6, 30];
    let roster = roster_of(RDFS, &table, 32);
    check(&table, &roster, 2, 2);
    let (mut map, mut work) = (vec![9; 32], vec![9; 64]);
    let mut strong = |result: &mut [u32]| summarise_strong(RDFS, &table, &roster, result, &mut map, &mut work);
    let (mut two, mut three) = ([9; 6], [9; 9]);
    assert_eq!(strong(&mut two), Err(Refusal::Slots));
    assert_eq!(strong(&mut three), Ok(3));
    assert_eq!(three, [10, 5, 20, 10, 5, 21, 21, 6, 30]);
}

/// The words decide which triples are data: with type at 310 code 0 is a property of data.
#[test]
fn other_words() {
    let words = Words([310, 5, 6, 7, 8]);
    let table = [10, 0, 20, 11, 0, 21, 10, 310, 9, 11, 310, 9];
    let roster = roster_of(words, &table, 311);
    assert_eq!(slots_bound(words, &table, &roster), 3);
    assert_eq!(slots_bound(words, &table[..6], &roster), 1);
    // By 0 to 4 the first two triples are types, and 310 is a property with a marked object.
    assert_eq!(slots_bound(RDFS, &table[..6], &roster), 2);
    assert_eq!(slots_bound(RDFS, &table, &roster), 4);
}

/// Every input has a number: no whole triple, no roster, codes and words beyond it, words that are equal.
#[test]
fn any_input() {
    let most = u32::MAX;
    assert_eq!(slots_bound(RDFS, &[10, 5], &[]), 0);
    assert_eq!(slots_bound(RDFS, &[10, 0, 8, 10, 0], &[]), 1);
    assert_eq!(slots_bound(RDFS, &[10, 5, 11, 10, 0, 8], &[]), 1);
    assert_eq!(slots_bound(RDFS, &[10, most, 11, 10, 5, 11, 10, 6, 11], &[0; 6]), 1);
    // Codes beyond the roster count for the triples and are unmarked.
    assert_eq!(slots_bound(RDFS, &[most, 5, most, 7, 5, 7, 7, 5, 8], &[0; 6]), 1);
    assert_eq!(slots_bound(RDFS, &[5, 5, most, 6, 5, 7, 7, 5, 8], &[255; 6]), 2);
    assert_eq!(slots_bound(Words([most; 5]), &[0, 0, 0, 1, most, 1, 2, most, 2], &[0; 5]), 3);
}
