//! Cases of full length: large tables and sites, and lengths at and just over the limits.

use crate::asks;
use crate::chains;
use crate::generate::{self, Site};
use crate::intakes;
use crate::random::Random;
use crate::report::Report;
use crate::rest;
use crate::shapes;
use crate::slots;
use crate::tables::{self, Lent, STRONG, WEAK};
use crate::words::{self, free_code, Words, RDFS};
use weak_summary_reference::{self as plain, Mistake, MAX_SIZE, MAX_TRIPLES, QUERY_NUMBERS};

/// A table of data, type and some schema triples over all codes of a site.
fn large_table(random: &mut Random, words: &Words, n: usize, amount: usize) -> Vec<u32> {
    let code = |random: &mut Random, from: usize, to: usize| free_code(words, from + random.below(to - from));
    let (properties, classes, nodes) = (n / 100 + 1, n / 50 + 2, n - 5);
    let mut table = Vec::with_capacity(3 * amount);
    for _ in 0..amount {
        let [property, higher] = [(); 2].map(|()| code(random, 0, properties));
        let [class, above] = [(); 2].map(|()| code(random, properties, classes));
        let node = code(random, classes, nodes);
        table.extend(match random.below(400) {
            0 => [class, words[1], above],
            1 => [property, words[2], higher],
            2 => [property, words[3], class],
            3 => [property, words[4], class],
            4..=83 => [node, words[0], class],
            _ => [node, property, code(random, classes, nodes)],
        });
    }
    table
}

fn lent(random: &mut Random, words: &Words, table: &[u32], n: usize, slots: usize) -> Lent {
    let mut roster = vec![0; n];
    plain::own_roster(words, table, &mut roster);
    Lent {
        words: words.to_vec(),
        table: table.to_vec(),
        roster,
        result: random.junk(3 * slots),
        map: random.junk(n),
        work: random.junk(2 * n),
        number: 7,
    }
}

/// A table with its own roster.
fn site(words: &Words, table: Vec<u32>, n: usize) -> Site {
    let mut roster = vec![0; n];
    plain::own_roster(words, &table, &mut roster);
    Site { n, right_words: *words, words: words.to_vec(), table, roster }
}

/// A summary in a list cut to the bound, with every seventh code marked besides those of the own roster.
fn cut_list(random: &mut Random, report: &mut Report, mistake: Mistake, mut site: Site) {
    for code in (0..site.n).step_by(7).filter(|&code| !site.right_words.contains(&(code as u32))) {
        site.roster[code] |= 1;
    }
    slots::compare(random, report, mistake, &site, false);
}

/// Asks for the last triple that is no schema triple; for a domain of its subject, which is retired; and for three types and a
/// property that no triple has, which share no variable.
fn ask_all(report: &mut Report, mistake: Mistake, words: &Words, table: &[u32], n: usize) {
    let t = table.chunks_exact(3).rfind(|t| asks::is_answered(words, t[1])).unwrap();
    let (word, class) = (words[0], table.chunks_exact(3).find(|t| t[1] == words[0]).unwrap()[2]);
    let apart = [[0, 0, word, 0, 1], [0, 2, word, 0, 3], [0, 4, word, 0, 5], [0, 6, class, 0, 7]];
    let one = |property: u32| vec![[1, t[0], property, 0, 3]];
    for patterns in [one(t[1]), one(words[3]), apart.to_vec()] {
        let mut query = [vec![patterns.len() as u32], patterns.concat()].concat();
        query.resize(QUERY_NUMBERS, 0);
        let map = (0..n as u32).collect();
        let before = asks::Lent { words: words.to_vec(), table: table.to_vec(), map, query, maybe: 9 };
        asks::compare_ask(report, mistake, before);
    }
}

/// The calls on one table, with result slots that fit and that do not.
fn on_table(random: &mut Random, report: &mut Report, mistake: Mistake, words: &Words, [n, amount]: [usize; 2]) {
    let table = &large_table(random, words, n, amount);
    tables::compare_own_roster(report, (words.to_vec(), table.to_vec(), random.junk_bytes(n)));
    for slots in [amount, amount / 2, 40] {
        let lent = lent(random, words, table, n, slots);
        tables::compare_summarise(report, mistake, &WEAK, lent.clone());
        tables::compare_summarise(report, mistake, &STRONG, lent);
    }
    cut_list(random, report, mistake, site(words, table.clone(), n));
    let mut cliques = lent(random, words, table, n, 0);
    cliques.result = random.junk(n);
    tables::compare_cliques(report, mistake, cliques);
    let t = [table[table.len() - 3], table[table.len() - 2], table[table.len() - 1]];
    for t in [t, [t[2], t[1], 3]] {
        tables::compare_look_up(random, report, mistake, table.to_vec(), t);
    }
    ask_all(report, mistake, words, table, n);
}

/// Strong summaries of large shapes, the last triples first, with result slots that fit and that do not.
fn strong_shapes(random: &mut Random, report: &mut Report, mistake: Mistake, words: &Words) {
    for table in shapes::all(words) {
        let turned: Vec<&[u32]> = table.chunks_exact(3).rev().collect();
        for slots in [turned.len(), turned.len() / 2] {
            let lent = lent(random, words, &turned.concat(), MAX_SIZE, slots);
            tables::compare_summarise(report, mistake, &STRONG, lent);
        }
    }
}

/// Long saturations, with result slots that fit and that do not.
fn saturations(random: &mut Random, report: &mut Report, mistake: Mistake) {
    for (n, amount, slots) in [(300, 2_000, 60_000), (300, 2_000, 1_000), (2_000, 20_000, 400_000)] {
        for words in [RDFS, words::others(random, n)] {
            let table = large_table(random, &words, n, amount);
            let lent = lent(random, &words, &table, n, slots);
            tables::compare_saturate(report, mistake, lent);
        }
    }
}

/// Both summaries of long saturations, reworked.
fn reworks(random: &mut Random, report: &mut Report, mistake: Mistake) {
    for (n, amount, slots) in [(300, 2_000, 60_000), (2_000, 20_000, 400_000)] {
        for words in [RDFS, words::others(random, n)] {
            let site = site(&words, large_table(random, &words, n, amount), n);
            for summary in [&WEAK, &STRONG] {
                let worked = rest::compare(random, report, mistake, summary, &site, slots);
                assert!(worked || mistake != Mistake::None, "a long rework was refused");
            }
        }
    }
}

/// Lengths at the limits and just over them; places from 0 to the largest.
fn limits(random: &mut Random, report: &mut Report, mistake: Mistake) {
    for amount in [MAX_TRIPLES, MAX_TRIPLES + 1] {
        let list = vec![5; 3 * amount];
        for object in [4, 5, 6] {
            tables::compare_look_up(random, report, mistake, list.clone(), [5, 5, object]);
        }
        tables::compare_own_roster(report, (RDFS.to_vec(), list, random.junk_bytes(6)));
        intakes::open_weighed(random, report, mistake, amount);
    }
    // Words that are right from five codes on, at the largest site only, and nowhere.
    for words in [RDFS, [4, 3, 2, 1, 0], [65_535, 0, 65_534, 1, 2], [0, 1, 2, 3, 65_536]] {
        for n in [4, 5, MAX_SIZE - 1, MAX_SIZE, MAX_SIZE + 1] {
            tables::compare_own_roster(report, (words.to_vec(), Vec::new(), random.junk_bytes(n)));
            intakes::open_with(random, report, &words, &vec![0; n], 2);
            let empty = lent(random, &words, &[], n, 2);
            tables::compare_summarise(report, Mistake::None, &WEAK, empty.clone());
            tables::compare_summarise(report, Mistake::None, &STRONG, empty.clone());
            tables::compare_saturate(report, Mistake::None, empty);
        }
    }
}

pub fn all(random: &mut Random, report: &mut Report, mistake: Mistake) {
    limits(random, report, mistake);
    for sizes in [[60, 600, 3_000, 250], [2_000, 1_500, 2_000, 1_500], [65_536, 200, 200, 200]] {
        for make in [generate::table, generate::typed_table, generate::kinds_table] {
            chains::feed(random, report, mistake, make, sizes);
            chains::mix(random, report, mistake, make, sizes);
        }
    }
    for sizes in [[300, 3_000], [4_000, 20_000], [65_536, 100_000], [65_536, MAX_TRIPLES], [2_000, MAX_TRIPLES]] {
        for words in [RDFS, words::others(random, sizes[0])] {
            on_table(random, report, mistake, &words, sizes);
        }
    }
    for words in [RDFS, words::others(random, MAX_SIZE)] {
        strong_shapes(random, report, mistake, &words);
    }
    // The wrong saturations take all pairs, which is too slow here.
    if !matches!(mistake, Mistake::OneRound | Mistake::WrongWay) {
        saturations(random, report, mistake);
        reworks(random, report, mistake);
    }
}
