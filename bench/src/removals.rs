//! Removing triples from an intake that holds a table.

use crate::feeds::{data_at, fresh, new_image, new_node, new_typed, Choice};
use crate::inputs::{self, Input, Random, FIRST_FREE};
use crate::intakes::{agree, holding, Intake, CALLS};
use crate::measure::{heading, measure, series, sizes, Settings, Timing};
use std::collections::HashMap;
use weak_summary::calls as proved;
use weak_summary_reference::{remove_fast, remove_lists_only, FastIntake, Removed, MAX_TRIPLES};

fn remove(l: &mut Intake, roster: &[u8], t: [u32; 3]) {
    let mut place = usize::MAX;
    let status = proved::remove(l.lent(roster), t, &mut place);
    l.answers.push(if status == 0 { Ok((false, place)) } else { Err(status) });
}

fn result(l: &Intake) -> String {
    let removed = l.answers.iter().filter(|answer| answer.is_ok()).count();
    format!("{removed} of {CALLS} removed, summary {}", l.summarised)
}

/// How often each node stands at each side of each property, of the data triples in a list without repeats.
struct Ends(HashMap<[u32; 3], u32>);

impl Ends {
    fn of(list: &[[u32; 3]]) -> Ends {
        let mut counts = HashMap::new();
        for t in list.iter().filter(|t| t[1] >= FIRST_FREE) {
            for end in Ends::both(*t) {
                *counts.entry(end).or_insert(0) += 1;
            }
        }
        Ends(counts)
    }

    /// Side, property and node.
    fn both([s, p, o]: [u32; 3]) -> [[u32; 3]; 2] {
        [[0, p, s], [1, p, o]]
    }

    fn counts(&self, t: [u32; 3]) -> [u32; 2] {
        Ends::both(t).map(|end| self.0.get(&end).copied().unwrap_or(0))
    }

    fn take(&mut self, t: [u32; 3]) {
        for end in Ends::both(t) {
            self.0.entry(end).and_modify(|count| *count -= 1);
        }
    }
}

/// Data triples of the list, each of which passes the test when those before it have left.
fn chosen(random: &mut Random, list: &[u32], test: impl Fn(&Ends, [u32; 3]) -> bool) -> Vec<[u32; 3]> {
    let list = inputs::sorted(list);
    let (triples, _) = list.as_chunks::<3>();
    let mut ends = Ends::of(triples);
    let mut found: Vec<[u32; 3]> = Vec::new();
    while found.len() < CALLS {
        let t = triples[random.below(triples.len() as u32) as usize];
        if t[1] >= FIRST_FREE && !found.contains(&t) && test(&ends, t) {
            ends.take(t);
            found.push(t);
        }
    }
    found
}

/// Triples whose ends others keep: in this table all ends of data are unmarked.
fn kept(random: &mut Random, table: &[u32]) -> Vec<[u32; 3]> {
    chosen(random, table, |ends, t| ends.counts(t).iter().all(|&count| count > 1))
}

/// Triples after which the subject has their property no more, but others; the object is kept.
fn losing(random: &mut Random, table: &[u32]) -> Vec<[u32; 3]> {
    let others = |t: [u32; 3]| table.chunks_exact(3).any(|u| u[0] == t[0] && u[1] != t[1] && u[1] >= FIRST_FREE);
    chosen(random, table, |ends, t| ends.counts(t)[0] == 1 && ends.counts(t)[1] > 1 && others(t))
}

/// A new node as subject of a property, with an object that others keep.
fn leaf(random: &mut Random, table: &[u32]) -> [u32; 3] {
    let i = data_at(random, table);
    [fresh(random), table[i + 1], table[i + 2]]
}

/// What is removed: triples of the table, or such that are put to it before, or that it has not.
#[derive(Clone, Copy)]
enum Source {
    Table(fn(&mut Random, &[u32]) -> Vec<[u32; 3]>),
    Added(Choice),
    Missing(Choice),
}

impl Source {
    /// The triples to remove, with those that are to be added for it in the table.
    fn choose(self, input: &mut Input) -> Vec<[u32; 3]> {
        let mut random = Random::new();
        let mut many = |choose: Choice| (0..CALLS).map(|_| choose(&mut random, &input.table)).collect();
        match self {
            Source::Missing(choose) => many(choose),
            Source::Added(choose) => {
                let triples: Vec<[u32; 3]> = many(choose);
                input.table.extend(triples.as_flattened());
                triples
            }
            Source::Table(choose) => choose(&mut random, &input.table),
        }
    }
}

/// A way to remove from the plain intake.
type PlainRemove = fn(&mut FastIntake, [u32; 3]) -> Removed;

/// Times removals from an intake that holds the data-heavy table.
fn removals(settings: &Settings, amount: usize, source: Source, plain_remove: PlainRemove) -> Timing {
    let mut input = inputs::data_heavy(amount);
    input.table.truncate(3 * (MAX_TRIPLES - 2 * CALLS).min(amount));
    let removed = source.choose(&mut input);
    let roster = &input.roster;
    let (ours, mut theirs) = holding(&input.table, roster);
    theirs.intake.count_ends();
    let timing = measure(
        settings,
        (&ours, &theirs),
        |l| removed.iter().for_each(|&t| remove(l, roster, t)),
        |l| {
            for &t in &removed {
                l.answers.push(plain_remove(&mut l.intake, t).map(|place| (false, place)));
            }
        },
        |a, b| agree(a, b, result),
    );
    timing.per_call(CALLS)
}

const LINES: [(&str, Source); 6] = [
    ("not held", Source::Missing(new_node)),
    ("ends kept by others, line stays", Source::Table(kept)),
    ("ends kept by others, line goes", Source::Added(new_image)),
    ("data of nodes that vanish", Source::Added(leaf)),
    ("types of nodes that vanish", Source::Added(new_typed)),
    ("data whose subject keeps other data only", Source::Table(losing)),
];

pub fn all(settings: &Settings) {
    let sizes = &sizes(settings);
    let note = "Size: triples held before, of the data-heavy table, and in the lines \"line goes\" and \"nodes that vanish\" 16 \
                more; the state is what feeding them leaves. N is 65,536. Times are for one removal, the mean of 16. The proved \
                intake has nothing but the lent lists: it passes over the triples to see whether others keep the two ends, and \
                else makes the map, the summary and the weights anew. The plain one counts in notes of its own how often each \
                node stands at each side of each property, and makes them anew only where the class of a node that stays may \
                change; in the lines \"lists only\" it has no notes, looks beside the triple for its subject and passes over the \
                triples for its object, and else makes them anew, as the proved one does. Nodes that vanish have the largest \
                codes.";
    heading("Remove", note);
    for (name, source) in LINES {
        series(settings, name, sizes, |t| removals(settings, t, source, remove_fast));
    }
    for (name, source) in &LINES[1..5] {
        series(settings, &format!("{name}, lists only"), sizes, |t| removals(settings, t, *source, remove_lists_only));
    }
}
