//! Rosters with one value: at each place of every length from 5 to 40, and at some places of the largest sites.

use crate::intakes;
use crate::random::Random;
use crate::report::Report;
use crate::tables::{self, Lent};
use crate::words::{self, Words, RDFS};
use weak_summary_reference::{Mistake, MAX_SIZE};

/// The largest mark, and values over it: single upper bits, and several bits.
const VALUES: [u8; 10] = [3, 4, 8, 16, 32, 64, 128, 7, 252, 255];

/// Opening, cliques and saturate with a blank roster that has a value at one place, and no table.
fn compare(random: &mut Random, report: &mut Report, words: &Words, n: usize, place: usize) {
    for value in VALUES {
        let mut roster = vec![0; n];
        roster[place] = value;
        intakes::open_with(random, report, words, &roster, 2);
        let lent = Lent {
            words: words.to_vec(),
            table: Vec::new(),
            roster,
            result: random.junk(n),
            map: random.junk(n),
            work: Vec::new(),
            number: 7,
        };
        tables::compare_cliques(report, Mistake::None, lent.clone());
        tables::compare_saturate(report, Mistake::None, lent);
    }
}

pub fn all(random: &mut Random, report: &mut Report) {
    for n in 5..=40 {
        let words = words::right(random, n);
        for place in 0..n {
            compare(random, report, &words, n, place);
        }
    }
    for n in [MAX_SIZE - 1, MAX_SIZE] {
        for place in [0, 7, 8, 15, 16, n / 2, n - 9, n - 8, n - 7, n - 1] {
            compare(random, report, &RDFS, n, place);
        }
    }
}
