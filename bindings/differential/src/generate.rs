//! Random sites, valid and damaged.

use crate::random::Random;
use crate::words::{self, free_code, Words};
use weak_summary_reference as plain;

/// A range of codes, among those that are no words, that triples are drawn from.
#[derive(Clone, Copy)]
struct Pool {
    words: Words,
    start: usize,
    width: usize,
}

impl Pool {
    /// Often a narrow range, so that triples meet.
    fn new(random: &mut Random, words: Words, n: usize) -> Pool {
        let free = n - 5;
        let width = match random.below(4) {
            0 => free,
            _ => 1 + random.below(free.min(8)),
        };
        Pool { words, start: random.below(free - width + 1), width }
    }

    fn draw(self, random: &mut Random) -> u32 {
        free_code(&self.words, self.start + random.below(self.width))
    }
}

/// Of 100 triples, how many are type and how many each of subclass, subproperty, domain and range; the rest are data.
const MIXES: [[usize; 2]; 7] = [[0, 0], [10, 5], [60, 0], [30, 10], [0, 15], [20, 15], [2, 23]];

/// The place of the property among the words, or none for data.
fn kind(random: &mut Random, [types, each]: [usize; 2]) -> Option<usize> {
    let roll = random.below(100);
    if roll < types {
        return Some(0);
    }
    (roll < types + 4 * each).then(|| 1 + (roll - types) / each)
}

/// A site size: mostly small, now and then large.
pub fn size(random: &mut Random) -> usize {
    match random.below(1000) {
        0..=649 => 5 + random.below(20),
        650..=949 => 10 + random.below(90),
        950..=994 => 100 + random.below(2_000),
        995..=997 => 65_536 - random.below(3),
        _ => 5,
    }
}

/// A number of triples: mostly few.
pub fn amount(random: &mut Random) -> usize {
    match random.below(100) {
        0..=59 => random.below(12),
        60..=94 => random.below(40),
        _ => random.below(250),
    }
}

/// A table with codes below n, with repeats.
pub fn table(random: &mut Random, words: Words, n: usize, amount: usize) -> Vec<u32> {
    if n < 6 {
        return Vec::new();
    }
    let [nodes, others, classes, properties] = [(); 4].map(|()| Pool::new(random, words, n));
    let mix = random.pick(&MIXES);
    let mut table: Vec<u32> = Vec::with_capacity(3 * amount);
    while table.len() < 3 * amount {
        if random.chance(5) && !table.is_empty() {
            let i = 3 * random.below(table.len() / 3);
            table.extend_from_within(i..i + 3);
            continue;
        }
        let node = nodes.draw(random);
        let class = classes.draw(random);
        let property = properties.draw(random);
        table.extend(match kind(random, mix) {
            Some(0) => [node, words[0], class],
            Some(1) => [class, words[1], classes.draw(random)],
            Some(2) => [property, words[2], properties.draw(random)],
            Some(place) => [property, words[place], class],
            None => [node, property, if random.chance(50) { nodes } else { others }.draw(random)],
        });
    }
    table
}

/// How many classes and properties a typed table has.
const CLASSES: usize = 2;
const PROPERTIES: usize = 8;

/// The least size of its site, with four nodes.
pub const TYPED_SIZE: usize = 5 + CLASSES + PROPERTIES + 4;

/// A table that, when it is fed, puts nodes with types together and apart: half of its triples are types, and the others have
/// properties enough to keep nodes apart for a while. Nodes, classes and properties are different codes.
pub fn typed_table(random: &mut Random, words: Words, n: usize, amount: usize) -> Vec<u32> {
    let nodes = n - 5 - CLASSES - PROPERTIES;
    let mut table = Vec::with_capacity(3 * amount);
    for _ in 0..amount {
        let [node, other] = [(); 2].map(|()| free_code(&words, CLASSES + PROPERTIES + random.below(nodes)));
        table.extend(match random.chance(50) {
            true => [node, words[0], free_code(&words, random.below(CLASSES))],
            false => [node, free_code(&words, CLASSES + random.below(PROPERTIES)), other],
        });
    }
    table
}

/// The least size of a site for a table of chains, with two properties and four nodes.
pub const CHAINS_SIZE: usize = 5 + 2 + 4;

/// A table of data alone, with two properties and now and then from a node to itself: with about as many triples as nodes, classes
/// hang by single triples, and fall apart without them.
pub fn chains_table(random: &mut Random, words: Words, n: usize, amount: usize) -> Vec<u32> {
    let mut table = Vec::with_capacity(3 * amount);
    for _ in 0..amount {
        let property = free_code(&words, random.below(2));
        let [node, other] = [(); 2].map(|()| free_code(&words, 2 + random.below(n - 7)));
        table.extend([node, property, if random.chance(20) { node } else { other }]);
    }
    table
}

/// How many kinds of nodes, properties and classes a table of kinds has.
const KINDS: usize = 3;
const KIND_PROPERTIES: usize = 6;
const KIND_CLASSES: usize = 8;

/// The least size of its site, with four nodes of each kind.
pub const KINDS_SIZE: usize = 5 + KIND_PROPERTIES + KIND_CLASSES + 4 * KINDS;

/// A table with many nodes of each kind: a property leads from all nodes of one kind to those of another, so that most triples leave
/// their ends to others. Some are types, some are schema triples, and some data leads to a class.
pub fn kinds_table(random: &mut Random, words: Words, n: usize, amount: usize) -> Vec<u32> {
    let each = (n - 5 - KIND_PROPERTIES - KIND_CLASSES) / KINDS;
    let class = |random: &mut Random| free_code(&words, random.below(KIND_CLASSES));
    let node = |random: &mut Random, kind: usize| {
        free_code(&words, KIND_CLASSES + KIND_PROPERTIES + kind % KINDS * each + random.below(each))
    };
    let mut table = Vec::with_capacity(3 * amount);
    for _ in 0..amount {
        let place = random.below(KIND_PROPERTIES);
        let (property, subject) = (free_code(&words, KIND_CLASSES + place), node(random, place));
        table.extend(match random.below(20) {
            0 => [class(random), words[1], class(random)],
            1 => [property, words[3], class(random)],
            2..=4 => [subject, words[0], class(random)],
            5 => [subject, property, class(random)],
            _ => [subject, property, node(random, place / 2 + 1)],
        });
    }
    table
}

/// A wrong number where a code should be: not below n, or reserved. A code below 5 is wrong only where it is a word.
fn wrong_code(random: &mut Random, words: Words, n: usize) -> u32 {
    match random.below(5) {
        0 => n as u32,
        1 => u32::MAX,
        2 => n as u32 + random.below(1000) as u32,
        3 => random.below(5) as u32,
        _ => random.pick(&words),
    }
}

/// Puts a wrong code in a triple.
pub fn damage_triple(random: &mut Random, words: Words, n: usize, t: &mut [u32]) {
    let place = random.below(3);
    t[place] = match place {
        1 => n as u32 + random.below(3) as u32,
        _ => wrong_code(random, words, n),
    };
}

/// A triple to feed or to remove: from the table, wrong, or of other codes.
pub fn called(random: &mut Random, words: Words, table: &[u32], n: usize) -> [u32; 3] {
    let mut t = [0; 3];
    if table.is_empty() || random.chance(4) {
        let code = |random: &mut Random| free_code(&words, random.below(n.max(6) - 5));
        return [code(random), random.below(n + 1) as u32, code(random)];
    }
    let i = 3 * random.below(table.len() / 3);
    t.copy_from_slice(&table[i..i + 3]);
    if random.chance(6) {
        damage_triple(random, words, n, &mut t);
    }
    t
}

/// Puts a wrong code in the table, or makes its length wrong.
pub fn damage_table(random: &mut Random, words: Words, n: usize, table: &mut Vec<u32>) {
    if random.chance(30) || table.is_empty() {
        let more = 1 + random.below(2);
        table.extend(&random.junk(more));
        return;
    }
    let i = 3 * random.below(table.len() / 3);
    damage_triple(random, words, n, &mut table[i..i + 3]);
}

/// The own roster, sometimes with more marks.
pub fn roster(random: &mut Random, words: Words, n: usize, table: &[u32]) -> Vec<u8> {
    let mut roster = vec![0; n];
    plain::own_roster(&words, table, &mut roster);
    if random.chance(30) && n > 5 {
        for _ in 0..1 + random.below(4) {
            roster[free_code(&words, random.below(n - 5)) as usize] |= 1 + random.below(3) as u8;
        }
    }
    roster
}

/// Damages a roster: a value over 3, a reserved code marked, a mark taken away, or another length.
pub fn damage_roster(random: &mut Random, words: Words, roster: &mut Vec<u8>) {
    let n = roster.len();
    match random.below(7) {
        0 => roster[random.below(n)] = 4 + random.below(252) as u8,
        1 => roster[random.pick(&words) as usize] = 1 + random.below(255) as u8,
        2..=5 => {
            let marked: Vec<usize> = (0..n).filter(|&c| roster[c] != 0).collect();
            if !marked.is_empty() {
                roster[random.pick(&marked)] &= random.below(4) as u8;
            }
        }
        _ => roster.resize(random.pick(&[0, 4, n - 1, n + 1, 65_537]), 0),
    }
}

/// A length that is wrong where `right` is asked for, mostly by little.
pub fn other_length(random: &mut Random, right: usize) -> usize {
    random.pick(&[0, right.saturating_sub(1), right + 1, right / 2, 2 * right + 1])
}

/// A length for a result of `count` triples: too short, just enough, or more.
pub fn result_length(random: &mut Random, count: usize) -> usize {
    let enough = 3 * count;
    match random.below(10) {
        0 => enough.saturating_sub(1),
        1 => enough.saturating_sub(1 + random.below(9)),
        2 => random.below(enough + 1),
        3..=5 => enough,
        6 => enough + 1,
        7 => enough + 2,
        _ => enough + random.below(40),
    }
}

/// A table with its words and its roster. Some are damaged, in one place or in several.
#[derive(Debug)]
pub struct Site {
    pub n: usize,
    /// The words that the table was made with.
    pub right_words: Words,
    /// The words as they are lent.
    pub words: Vec<u32>,
    pub table: Vec<u32>,
    pub roster: Vec<u8>,
}

pub fn site(random: &mut Random) -> Site {
    let n = size(random);
    let amount = amount(random);
    let right_words = words::right(random, n);
    let mut table = table(random, right_words, n, amount);
    let mut roster = roster(random, right_words, n, &table);
    if random.chance(25) {
        if random.chance(60) {
            damage_table(random, right_words, n, &mut table);
        }
        if random.chance(60) {
            damage_roster(random, right_words, &mut roster);
        }
    }
    let words = words::lent(random, n, right_words);
    Site { n: roster.len(), right_words, words, table, roster }
}
