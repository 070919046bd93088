//! A shipped summary is at rest: saturated and summarised again with the same roster, it stays as it is.

mod common;

use common::{map_with, one, reworked, roster_of, saturation_of, summary_by, Summarise};
use common::{RDFS, SIX, SIX_SATURATED, SIX_SUMMARY};
use weak_summary::{ask, summarise, summarise_strong, Answer, End};

const BOTH: [Summarise; 2] = [summarise, summarise_strong];

/// The nodes of a summary, each its own representative.
fn own_nodes(n: usize, codes: &[usize]) -> Vec<u32> {
    map_with(n, &codes.iter().map(|&code| (code, code as u32)).collect::<Vec<_>>())
}

/// A saturated table need not be in order, and may have repeats.
#[test]
fn summary_of_the_six_rests() {
    let turned: Vec<&[u32]> = SIX_SATURATED.chunks_exact(3).rev().chain([&SIX[..3]]).collect();
    let roster = roster_of(RDFS, &SIX, 14);
    for call in BOTH {
        let (summary, _) = summary_by(call, RDFS, &turned.concat(), 14);
        assert_eq!(summary, SIX_SUMMARY);
        let [saturated, again, second] = reworked(call, RDFS, &summary, &roster);
        assert_eq!((saturated, again), (summary.clone(), summary));
        // 11 and 13 are represented by others.
        assert_eq!(second, own_nodes(14, &[5, 6, 7, 8, 9, 10, 12]));
    }
}

#[test]
fn summaries_of_a_chain_rest() {
    let roster = roster_of(RDFS, &[10, 5, 11, 11, 5, 12], 13);
    let weak = vec![10, 5, 10];
    assert_eq!(reworked(summarise, RDFS, &weak, &roster), [weak.clone(), weak, own_nodes(13, &[10])]);
    let strong = vec![10, 5, 11, 11, 5, 12];
    let apart = own_nodes(13, &[10, 11, 12]);
    assert_eq!(reworked(summarise_strong, RDFS, &strong, &roster), [strong.clone(), strong, apart]);
}

/// The roster of the table may mark a class that its summary needs no mark for.
#[test]
fn more_marks_than_needed() {
    let table = [10, 5, 12, 11, 5, 13];
    let mut roster = roster_of(RDFS, &table, 14);
    roster[11] = 1;
    let summary = vec![10, 5, 12, 11, 5, 12];
    for call in BOTH {
        let (mut result, mut map, mut work) = ([9; 6], [9; 14], [9; 28]);
        assert_eq!(call(RDFS, &table, &roster, &mut result, &mut map, &mut work), Ok(2));
        assert_eq!((result.to_vec(), &map[10..]), (summary.clone(), &[10, 11, 12, 12][..]));
        let expected = [summary.clone(), summary.clone(), own_nodes(14, &[10, 11, 12])];
        assert_eq!(reworked(call, RDFS, &summary, &roster), expected);
    }
}

/// Summarising again needs no saturated table, but saturating then adds triples.
#[test]
fn plain_summary_is_not_saturated() {
    let table = [5, 3, 8, 10, 5, 12, 11, 5, 13];
    let roster = roster_of(RDFS, &table, 14);
    for call in BOTH {
        let (plain, _) = summary_by(call, RDFS, &table, 14);
        assert_eq!(plain, [5, 3, 8, 10, 5, 12]);
        let (mut again, mut map, mut work) = (vec![9; plain.len()], vec![9; 14], vec![9; 28]);
        assert_eq!(call(RDFS, &plain, &roster, &mut again, &mut map, &mut work), Ok(2));
        assert_eq!((again, map), (plain.clone(), own_nodes(14, &[5, 8, 10, 12])));
        assert_eq!(saturation_of(RDFS, &plain, 14, 3), Ok(vec![5, 3, 8, 10, 0, 8, 10, 5, 12]));
    }
}

/// The second map knows the nodes of the summary only: whoever asks by a node of the table keeps the first.
#[test]
fn first_map_stays_of_use() {
    let saturation = saturation_of(RDFS, &SIX, 14, 17).unwrap();
    let roster = roster_of(RDFS, &SIX, 14);
    let query = one(End::Code(11), 6, End::Variable(0));
    for call in BOTH {
        let (summary, first) = summary_by(call, RDFS, &saturation, 14);
        let [_, again, second] = reworked(call, RDFS, &summary, &roster);
        assert_eq!(ask(RDFS, &again, &first, &query), Ok(Answer::Maybe));
        assert_eq!(ask(RDFS, &again, &second, &query), Ok(Answer::None));
    }
}
