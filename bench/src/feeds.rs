//! Feeding an intake that holds a table.

use crate::inputs::{self, Random, FIRST_FREE, FRESH, SITE, TYPE};
use crate::intakes::{agree, holding, Intake, CALLS};
use crate::measure::{heading, measure, series, sizes, Settings, Timing};
use weak_summary::calls as proved;
use weak_summary_reference::{feed_fast, feed_lists_only, FastIntake, Fed, MAX_TRIPLES};

fn feed(l: &mut Intake, roster: &[u8], t: [u32; 3]) {
    let (mut is_new, mut place) = (9, usize::MAX);
    let status = proved::feed(l.lent(roster), t, &mut is_new, &mut place);
    assert_eq!(status, 0);
    l.answers.push(Ok((is_new == 1, place)));
}

fn result(l: &Intake) -> String {
    let new = l.answers.iter().filter(|answer| matches!(answer, Ok((true, _)))).count();
    format!("{new} of {CALLS} new, summary {}", l.summarised)
}

/// A way to choose a triple, given the table that is held.
pub type Choice = fn(&mut Random, &[u32]) -> [u32; 3];

/// A way to feed the plain intake.
type PlainFeed = fn(&mut FastIntake, [u32; 3]) -> Fed;

/// Times feeds to an intake that holds the data-heavy table.
fn feeds(settings: &Settings, amount: usize, choose: Choice, plain_feed: PlainFeed) -> Timing {
    let mut input = inputs::data_heavy(amount);
    input.table.truncate(3 * (MAX_TRIPLES - CALLS).min(amount));
    let roster = &input.roster;
    let (ours, theirs) = holding(&input.table, roster);
    let mut random = Random::new();
    let fed: Vec<[u32; 3]> = (0..CALLS).map(|_| choose(&mut random, &input.table)).collect();
    let timing = measure(
        settings,
        (&ours, &theirs),
        |l| fed.iter().for_each(|&t| feed(l, roster, t)),
        |l| {
            for &t in &fed {
                l.answers.push(plain_feed(&mut l.intake, t));
            }
        },
        |a, b| agree(a, b, result),
    );
    timing.per_call(CALLS)
}

pub fn fresh(random: &mut Random) -> u32 {
    FRESH + random.below(SITE - FRESH)
}

/// The place of some data triple of the table.
pub fn data_at(random: &mut Random, table: &[u32]) -> usize {
    loop {
        let i = 3 * random.below(table.len() as u32 / 3) as usize;
        if table[i + 1] >= FIRST_FREE {
            return i;
        }
    }
}

/// A data triple with the subject of one and the object of another triple of the same property.
fn known_image(random: &mut Random, table: &[u32]) -> [u32; 3] {
    let one = data_at(random, table);
    loop {
        let other = data_at(random, table);
        if table[other + 1] == table[one + 1] && other != one {
            return [table[one], table[one + 1], table[other + 2]];
        }
    }
}

fn repeat(random: &mut Random, table: &[u32]) -> [u32; 3] {
    let i = data_at(random, table);
    [table[i], table[i + 1], table[i + 2]]
}

/// A type of a node that is held.
pub fn new_image(random: &mut Random, table: &[u32]) -> [u32; 3] {
    let data = data_at(random, table);
    [table[data], TYPE, inputs::class(random)]
}

pub fn new_node(random: &mut Random, _: &[u32]) -> [u32; 3] {
    let [_, p, o] = inputs::data_triple(random);
    [fresh(random), p, o]
}

pub fn new_typed(random: &mut Random, _: &[u32]) -> [u32; 3] {
    [fresh(random), TYPE, inputs::class(random)]
}

/// A node as subject of a property that others of its class do not have.
fn joining(random: &mut Random, table: &[u32]) -> [u32; 3] {
    let (one, other) = (data_at(random, table), data_at(random, table));
    [table[one], table[other + 1], table[other + 2]]
}

const CHOICES: [(&str, Choice); 6] = [
    ("repeats", repeat),
    ("new, image known", known_image),
    ("new, image new, nodes known", new_image),
    ("data of new nodes", new_node),
    ("types of new nodes", new_typed),
    ("data that joins classes", joining),
];

pub fn all(settings: &Settings) {
    let sizes = &sizes(settings);
    let note = "Size: triples held before, of the data-heavy table; the state is what feeding them leaves. N is 65,536. \
                Times are for one feed, the mean of 16. The proved intake has nothing but the lent lists. The plain one \
                keeps notes of its own beside them (an end of each property, which nodes have data) and makes the map, the \
                summary and the weights anew only when the class of a known node changes; in the lines \"lists only\" it has \
                no notes and makes them anew whenever the image is new, as the proved one does. New nodes have the largest \
                codes, so they are inserted at the end.";
    heading("Feed", note);
    for (name, choose) in CHOICES {
        series(settings, name, sizes, |t| feeds(settings, t, choose, feed_fast));
    }
    for (name, choose) in &CHOICES[2..5] {
        series(settings, &format!("{name}, lists only"), sizes, |t| feeds(settings, t, *choose, feed_lists_only));
    }
}
