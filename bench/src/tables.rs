//! Own roster, saturate, cliques, the two summaries and look up.

use crate::inputs::{self, Input, WORDS};
use crate::measure::{heading, measure, series, sizes, Settings, Timing};
use weak_summary::calls as proved;
use weak_summary_reference as plain;

/// What a call writes.
#[derive(Clone, PartialEq)]
struct Written {
    roster: Vec<u8>,
    lists: [Vec<u32>; 3],
    count: usize,
    status: u32,
}

/// Lists of ones with these lengths.
fn ones(roster: usize, lengths: [usize; 3]) -> Written {
    Written { roster: vec![1; roster], lists: lengths.map(|length| vec![1; length]), count: usize::MAX, status: 9 }
}

/// Times a call that writes into such lists.
fn time(
    settings: &Settings,
    before: &Written,
    proved: impl Fn(&mut Written) -> u32,
    plain: impl Fn(&mut Written) -> u32,
) -> Timing {
    measure(
        settings,
        (before, before),
        |l| l.status = proved(l),
        |l| l.status = plain(l),
        |a, b| {
            let result = match (a.status, a.count) {
                (0, usize::MAX) => "-".to_string(),
                (0, count) => count.to_string(),
                (refusal, _) => format!("refused {refusal}"),
            };
            if a == b {
                Ok(result)
            } else {
                Err(format!("status {} and {}", a.status, b.status))
            }
        },
    )
}

fn own_roster(settings: &Settings, input: &Input) -> Timing {
    let table = &input.table;
    time(
        settings,
        &ones(input.n, [0; 3]),
        |l| proved::own_roster(&WORDS, table, &mut l.roster),
        |l| plain::own_roster(&WORDS, table, &mut l.roster),
    )
}

/// Saturates into as many slots as it takes, less `short`.
fn saturate(settings: &Settings, input: &Input, short: usize) -> Timing {
    let (table, roster) = (&input.table, &input.roster);
    let mut count = 0;
    let mut room = vec![0; 3 * (16 << 20)];
    assert_eq!(plain::saturate(&WORDS, table, roster, &mut room, &mut count), 0);
    drop(room);
    time(
        settings,
        &ones(0, [3 * (count - short), 0, 0]),
        |l| proved::saturate(&WORDS, table, roster, &mut l.lists[0], &mut l.count),
        |l| plain::saturate(&WORDS, table, roster, &mut l.lists[0], &mut l.count),
    )
}

fn cliques(settings: &Settings, input: &Input) -> Timing {
    let (table, roster) = (&input.table, &input.roster);
    time(
        settings,
        &ones(0, [input.n, input.n, 0]),
        |l| {
            let [sources, targets, _] = &mut l.lists;
            proved::cliques(&WORDS, table, roster, sources, targets)
        },
        |l| {
            let [sources, targets, _] = &mut l.lists;
            plain::cliques(&WORDS, table, roster, sources, targets)
        },
    )
}

type Summarise = fn(&[u32], &[u32], &[u8], &mut [u32], &mut [u32], &mut [u32], &mut usize) -> u32;

/// A summary by the proved and by the plain engine.
type Summary = [Summarise; 2];

const WEAK: Summary = [proved::summarise, plain::summarise];
const STRONG: Summary = [proved::summarise_strong, plain::summarise_strong];

/// Summarises into as many slots as the table has triples, or fewer.
fn summarise(settings: &Settings, summary: Summary, input: &Input, slots: usize) -> Timing {
    let before = ones(0, [3 * slots, input.n, 2 * input.n]);
    let [proved, plain] = summary.map(|call| {
        move |l: &mut Written| {
            let [result, map, work] = &mut l.lists;
            call(&WORDS, &input.table, &input.roster, result, map, work, &mut l.count)
        }
    });
    time(settings, &before, proved, plain)
}

/// Status, found and place.
type Looked = (u32, u32, usize);

fn look_up(settings: &Settings, list: &[u32], t: [u32; 3]) -> Timing {
    let before: Looked = (9, 9, usize::MAX);
    measure(
        settings,
        (&before, &before),
        |l| l.0 = proved::look_up(list, t[0], t[1], t[2], &mut l.1, &mut l.2),
        |l| l.0 = plain::look_up(list, t[0], t[1], t[2], &mut l.1, &mut l.2),
        |a, b| {
            let result = if a.1 == 1 { "found" } else { "not found" };
            if a == b && a.0 == 0 {
                Ok(format!("{result}, place {}", a.2))
            } else {
                Err(format!("look up {a:?} and {b:?}"))
            }
        },
    )
}

pub fn own_rosters(settings: &Settings) {
    let sizes = &sizes(settings);
    heading("Own roster", "Size: triples of the table. N is 65,536.");
    series(settings, "data-heavy", sizes, |t| own_roster(settings, &inputs::data_heavy(t)));
    series(settings, "type-heavy", sizes, |t| own_roster(settings, &inputs::type_heavy(t)));
}

pub fn clique_lists(settings: &Settings) {
    let sizes = &sizes(settings);
    heading("Cliques", "Size: triples of the table. N is 65,536.");
    series(settings, "data-heavy", sizes, |t| cliques(settings, &inputs::data_heavy(t)));
    series(settings, "one class", sizes, |t| cliques(settings, &inputs::one_class(t)));
    series(settings, "all nodes marked", sizes, |t| cliques(settings, &inputs::all_marked(t)));
}

pub fn look_ups(settings: &Settings) {
    let note = "Size: triples of the list, sorted. The triple is the last, or is not there; its place is counted. In the lines \
                \"not sorted\" the list is the data-heavy table as it comes, and about half of its triples come before.";
    heading("Look up", note);
    for (name, last) in [("the last", true), ("not there", false)] {
        series(settings, name, &sizes(settings), |t| {
            let list = inputs::sorted(&inputs::all_marked(t).table);
            let end = list.len() - 3;
            look_up(settings, &list, if last { [list[end], list[end + 1], list[end + 2]] } else { [9, 9, 9] })
        });
    }
    series(settings, "not there, not sorted", &sizes(settings), |t| {
        look_up(settings, &inputs::data_heavy(t).table, [inputs::FRESH / 2, 0, 0])
    });
}

pub fn saturations(settings: &Settings) {
    let sizes = &sizes(settings);
    let note = "Size: triples of the table; where there are schema triples alone, about the triples of their closure. \
                Result: triples of the saturation. The result list has just the slots that it takes; in the lines \"one \
                slot short\" it has one less, and the call is refused with 5.";
    heading("Saturate", note);
    series(settings, "data-heavy, no schema", sizes, |t| saturate(settings, &inputs::data_heavy(t), 0));
    series(settings, "type-heavy, no schema", sizes, |t| saturate(settings, &inputs::type_heavy(t), 0));
    series(settings, "types under a chain of 16 classes", sizes, |t| {
        saturate(settings, &inputs::types_under_chain(t), 0)
    });
    series(settings, "data under a tree of 127 properties", sizes, |t| {
        saturate(settings, &inputs::property_tree(t), 0)
    });
    series(settings, "chain of classes alone", sizes, |t| saturate(settings, &inputs::class_chain(t), 0));
    series(settings, "domains and ranges under a tree and a chain, alone", sizes, |t| {
        saturate(settings, &inputs::constraints(t), 0)
    });
    series(settings, "data under a tree, one slot short", sizes, |t| saturate(settings, &inputs::property_tree(t), 1));
}

/// An input with this many triples.
type Make = fn(usize) -> Input;

/// The inputs of both summaries; the second line has few slots.
fn summary_lines(settings: &Settings, summary: Summary, few: usize) {
    let sizes = &sizes(settings);
    let line = |input: &str, make: Make| {
        series(settings, input, sizes, |t| summarise(settings, summary, &make(t), t));
    };
    line("data-heavy", inputs::data_heavy);
    series(settings, &format!("data-heavy, {few} slots"), sizes, |t| {
        summarise(settings, summary, &inputs::data_heavy(t), few)
    });
    line("type-heavy", inputs::type_heavy);
    line("one class", inputs::one_class);
    line("all nodes marked", inputs::all_marked);
}

pub fn summaries(settings: &Settings) {
    let note =
        "Size: triples of the table. N is 65,536. Result: triples of the summary. The result list has as many slots \
                as the table has triples; in the lines \"256 slots\" it has 256.";
    heading("Summarise", note);
    summary_lines(settings, WEAK, 256);
}

pub fn strong_summaries(settings: &Settings) {
    let note = "As for summarise; in the lines \"1024 slots\" the result list has 1,024. Star: one property, up to 60,000 \
                subjects, one object. Own ends: up to 21,000 properties, each with its own subject and object. One source \
                clique: up to 32,000 nodes, each with its own target clique. Larger tables of these three repeat \
                their triples.";
    heading("Summarise strongly", note);
    summary_lines(settings, STRONG, 1_024);
    let shapes: [(&str, Make); 3] =
        [("star", inputs::star), ("own ends", inputs::own_ends), ("one source clique", inputs::one_source)];
    for (input, make) in shapes {
        series(settings, input, &sizes(settings), |t| summarise(settings, STRONG, &make(t), t));
    }
}
