//! The check of a roster, and opening, which a controller does at every boot.

use crate::inputs::{SITE, WORDS};
use crate::measure::{heading, measure, series, Settings, Timing};
use weak_summary::calls as proved;
use weak_summary_reference as plain;

/// What opening writes.
#[derive(Clone, PartialEq)]
struct Opened {
    lists: [Vec<u32>; 4],
    counts: [usize; 2],
    status: u32,
}

/// A roster in which the codes behind the words have the values 0 to 3 in turn.
fn marked(n: usize) -> Vec<u8> {
    (0..n).map(|code| if code < WORDS.len() { 0 } else { (code % 4) as u8 }).collect()
}

/// Saturates one triple with a wrong code, which is refused straight after the check of the roster.
fn check(settings: &Settings, n: usize) -> Timing {
    let (roster, table) = (&marked(n), &[u32::MAX; 3]);
    measure(
        settings,
        (&(9, 9), &(9, 9)),
        |(status, count)| *status = proved::saturate(&WORDS, table, roster, &mut [], count),
        |(status, count)| *status = plain::saturate(&WORDS, table, roster, &mut [], count),
        |a, b| if a == b && a.0 == 3 { Ok("refused 3".to_string()) } else { Err("roster checks".to_string()) },
    )
}

fn open(settings: &Settings, n: usize, slots: usize) -> Timing {
    let roster = &marked(n);
    let lists = [3 * slots, 3 * slots, slots, n].map(|length| vec![1; length]);
    let before = Opened { lists, counts: [9; 2], status: 9 };
    measure(
        settings,
        (&before, &before),
        |Opened { lists: [triples, summary, weights, map], counts: [held, summarised], status }| {
            *status = proved::open(&WORDS, roster, proved::State { triples, summary, weights, map, held, summarised });
        },
        |Opened { lists: [triples, summary, weights, map], counts: [held, summarised], status }| {
            *status = plain::open(&WORDS, roster, plain::State { triples, summary, weights, map, held, summarised });
        },
        |a, b| if a == b && a.status == 0 { Ok("-".to_string()) } else { Err("openings".to_string()) },
    )
}

pub fn all(settings: &Settings) {
    let sizes: Vec<usize> = (13..=16).map(|power| 1 << power).collect();
    let note = "Size: N. Check of the roster: a saturate of one triple with a wrong code, which is refused straight after this check. \
                Opening makes a map of N entries absent and zeroes the two triple lists and the weights, which have no slots, \
                or 65,536.";
    heading("Roster check and opening", note);
    series(settings, "check of the roster", &sizes, |n| check(settings, n));
    series(settings, "opening, no slots", &sizes, |n| open(settings, n, 0));
    series(settings, "opening, 65,536 slots", &sizes, |n| open(settings, n, SITE as usize));
}
