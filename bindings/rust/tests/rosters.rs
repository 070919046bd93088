//! The check of a roster: one value at each place of every length from 5 to 40, and at some places of the largest sites.

mod common;

use common::{Summarise, RDFS};
use weak_summary::{cliques, saturate, summarise, summarise_strong, Intake, Refusal};

/// Every upper bit alone, and more of them; then the values of marks.
const VALUES: [u8; 14] = [4, 5, 7, 8, 16, 32, 64, 128, 252, 254, 255, 1, 2, 3];

/// What each call that checks a roster says of this one, with an empty table; a feed has the roster of its opening.
fn answers(roster: &[u8]) -> [Result<(), Refusal>; 5] {
    let n = roster.len();
    let (mut first, mut second) = (vec![1; n], vec![1; 2 * n]);
    let mut summary =
        |call: Summarise| call(RDFS, &[], roster, &mut [], &mut first, &mut second).map(|count| assert_eq!(count, 0));
    let summaries = [summary(summarise), summary(summarise_strong)];
    [
        summaries[0],
        summaries[1],
        saturate(RDFS, &[], roster, &mut []).map(|count| assert_eq!(count, 0)),
        cliques(RDFS, &[], roster, &mut first, &mut second[..n]),
        Intake::open(RDFS, roster, 1).map(|_| ()),
    ]
}

/// Tries each value at a place of a blank roster.
fn try_values(n: usize, place: usize) {
    for value in VALUES {
        let mut roster = vec![0; n];
        roster[place] = value;
        let right = value <= 3 && place >= 5;
        let expected = if right { Ok(()) } else { Err(Refusal::Roster) };
        assert_eq!(answers(&roster), [expected; 5], "{value} at {place} of {n}");
    }
}

#[test]
fn every_short_roster() {
    for n in 5..=40 {
        assert_eq!(answers(&vec![0; n]), [Ok(()); 5]);
        for place in 0..n {
            try_values(n, place);
        }
    }
}

#[test]
fn the_largest_rosters() {
    for n in 65_529..=65_536 {
        let rest = n / 8 * 8;
        for place in [5, 7, 8, 15, 16, 32_767, 32_768, rest - 8, rest - 1, rest.min(n - 1), n - 8, n - 1] {
            try_values(n, place);
        }
    }
}

#[test]
fn two_reasons_to_refuse() {
    for n in [5, 8, 13, 40] {
        for place in 0..n {
            let mut roster = vec![0; n];
            roster[3] = 1;
            roster[place] = 4;
            assert_eq!(answers(&roster), [Err(Refusal::Roster); 5]);
        }
    }
}
