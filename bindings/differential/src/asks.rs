//! Ask, on tables and summaries, with maps of every kind, and with queries that use up the limits of the search.

use crate::generate;
use crate::hard;
use crate::random::Random;
use crate::report::{Call, Report};
use crate::stages;
use crate::tables::run;
use crate::words::{self, Words};
use weak_summary::calls as proved;
use weak_summary_reference::{self as plain, Mistake, QUERY_NUMBERS};

/// Everything lent to ask.
#[derive(Clone, PartialEq, Eq, Debug)]
pub struct Lent {
    pub words: Vec<u32>,
    pub table: Vec<u32>,
    pub map: Vec<u32>,
    pub query: Vec<u32>,
    pub maybe: u32,
}

/// An end that the node fits: a variable of a few, or a code whose entry it is.
fn end_for(random: &mut Random, node: u32, map: &[u32], variables: usize) -> [u32; 2] {
    if random.chance(70) {
        return [0, (node as usize * 7 % variables) as u32];
    }
    let codes: Vec<u32> = (0..map.len()).filter(|&c| map[c] == node).map(|c| c as u32).collect();
    match codes.is_empty() {
        true => [1, random.below(map.len()) as u32],
        false => [1, random.pick(&codes)],
    }
}

/// Whether queries with this property are answered: it is not subclass, subproperty, domain or range.
pub fn is_answered(words: &Words, property: u32) -> bool {
    !words[1..].contains(&property)
}

/// A query of which most patterns fit some triple of the table; none has subclass, subproperty, domain or range.
fn query_for(random: &mut Random, words: Words, table: &[u32], map: &[u32], count: usize) -> Vec<u32> {
    let mut query = vec![0; QUERY_NUMBERS];
    query[0] = count as u32;
    let variables = 1 + random.below(8);
    let triples: Vec<&[u32]> = table.chunks_exact(3).filter(|t| is_answered(&words, t[1])).collect();
    for place in query[1..].chunks_exact_mut(5) {
        if triples.is_empty() || random.chance(5) {
            let n = map.len();
            let numbers = [0, random.below(8), random.below(n), random.below(2), random.below(n.min(8))];
            place.copy_from_slice(&numbers.map(|x| x as u32));
            if !is_answered(&words, place[2]) {
                place[2] = words[0];
            }
            continue;
        }
        let t = random.pick(&triples);
        place[..2].copy_from_slice(&end_for(random, t[0], map, variables));
        place[2] = t[1];
        place[3..].copy_from_slice(&end_for(random, t[2], map, variables));
    }
    query
}

/// Puts subclass, subproperty, domain or range in a pattern, counted or past the count.
fn retire(random: &mut Random, words: Words, query: &mut [u32]) {
    query[5 * random.below(8) + 3] = random.pick(&words[1..]);
}

/// Makes one number of a query wrong, in a counted pattern or past the count, or its length.
fn damage_query(random: &mut Random, n: usize, query: &mut Vec<u32>) {
    let i = 5 * random.below(8) + 1;
    let end = i + random.pick(&[0, 3]);
    let big = random.pick(&[n as u32, n as u32 + 1, u32::MAX]);
    match random.below(7) {
        0 => query[0] = random.pick(&[0, 9, 10, 16, u32::MAX]),
        1 => query[end] = random.pick(&[2, 3, u32::MAX]),
        2 => (query[end], query[end + 1]) = (0, random.pick(&[8, 9, n as u32, u32::MAX])),
        3 => (query[end], query[end + 1]) = (1, big),
        4 => query[i + 2] = big,
        5 => query[0] = 1 + random.below(query[0] as usize) as u32,
        _ => query.resize(random.pick(&[0, 1, 40, 42, 82]), 0),
    }
}

/// The map of the table's summary, the same code for each code, or junk.
fn map_for(random: &mut Random, words: Words, table: &[u32], n: usize) -> Vec<u32> {
    let roster = generate::roster(random, words, n, table);
    let mut map = vec![0; n];
    match random.below(3) {
        0 => (0..n as u32).collect(),
        1 => (0..n).map(|_| random.pick(&[random_code(n), plain::ABSENT, 5, 6, 7])).collect(),
        _ => {
            let (mut result, mut work) = (vec![0; table.len()], vec![0; 2 * n]);
            plain::summarise(&words, table, &roster, &mut result, &mut map, &mut work, &mut 0);
            map
        }
    }
}

fn random_code(n: usize) -> u32 {
    (n * 2 / 3) as u32
}

/// The images of the triples under the map, where it has entries that are no words.
fn image_of(words: Words, table: &[u32], map: &[u32]) -> Vec<u32> {
    let mut image = table.to_vec();
    for t in image.chunks_exact_mut(3) {
        for place in [0, 2] {
            let entry = map[t[place] as usize];
            if !words.contains(&entry) && (entry as usize) < map.len() {
                t[place] = entry;
            }
        }
    }
    image
}

pub fn ask(random: &mut Random, report: &mut Report, mistake: Mistake) {
    let n = generate::size(random);
    let count = 1 + random.below(8);
    let amount = generate::amount(random);
    let words = words::right(random, n);
    let mut table = generate::table(random, words, n, amount);
    let mut map = map_for(random, words, &table, n);
    if random.chance(50) {
        table = image_of(words, &table, &map);
    }
    let mut query = query_for(random, words, &table, &map, count);
    if random.chance(15) {
        retire(random, words, &mut query);
    }
    if random.chance(25) {
        damage_query(random, n, &mut query);
    }
    if random.chance(8) {
        generate::damage_table(random, words, n, &mut table);
    }
    if random.chance(4) {
        map.resize(random.pick(&[0, 4, n - 1, n + 1, 65_537]), 5);
    }
    let words = words::lent(random, n, words);
    compare_ask(report, mistake, Lent { words, table, map, query, maybe: random.next() as u32 });
}

/// A query that may use up the limits of the search.
pub fn hard(random: &mut Random, report: &mut Report, mistake: Mistake) {
    let hard::Hard { words, table, map, query } = hard::hard(random);
    let maybe = random.next() as u32;
    compare_ask(report, mistake, Lent { words: words.to_vec(), table, map, query, maybe });
}

pub fn compare_ask(report: &mut Report, mistake: Mistake, before: Lent) {
    let ours = run(&before, |l| proved::ask(&l.words, &l.table, &l.map, &l.query, &mut l.maybe));
    let theirs = run(&before, |l| plain::ask_with(mistake, &l.words, &l.table, &l.map, &l.query, &mut l.maybe));
    let yes = theirs.lent.maybe == 1;
    if theirs.status == 0 {
        report.reached(stages::reach(&before.table, &before.map, &before.query));
    }
    report.compare(Call::Ask, &before, ours, theirs, yes);
}
