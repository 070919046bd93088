//! That the benchmark's intake, in both ways, answers and holds what the plain intake does, and the plain intake what was computed by
//! hand.

use weak_summary_reference::{feed_fast, feed_lists_only, remove_fast, remove_lists_only};
use weak_summary_reference::{own_roster, FastIntake, Mistake, PlainIntake, State, Words, ABSENT};

/// The next number of a linear congruential generator.
fn next(state: &mut u64, bound: u64) -> u32 {
    *state = state.wrapping_mul(6_364_136_223_846_793_005).wrapping_add(1_442_695_040_888_963_407);
    ((*state >> 33) % bound) as u32
}

/// 0 to 4, or else five different codes below n.
fn random_words(state: &mut u64, n: u64) -> Words {
    let mut codes = *Words::RDFS.codes();
    if next(state, 2) == 0 {
        for i in 0..5 {
            codes[i] = loop {
                let code = next(state, n);
                if !codes[..i].contains(&code) {
                    break code;
                }
            };
        }
    }
    Words::new(codes)
}

/// Puts the words in place of codes 0 to 4, and the codes that are none of them in place of the others, in rising order.
fn load(words: Words, n: u64, table: &mut [u32]) {
    let free = (0..n as u32).filter(|code| !words.codes().contains(code));
    let codes: Vec<u32> = words.codes().iter().copied().chain(free).collect();
    for code in table {
        *code = codes[*code as usize];
    }
}

fn random_table(state: &mut u64, n: u64) -> Vec<u32> {
    let mut table = Vec::new();
    for _ in 0..1 + next(state, 40) {
        let [a, b, c] = [(); 3].map(|()| 5 + next(state, n - 5));
        let small = 5 + next(state, 4);
        table.extend(match next(state, 6) {
            0 => [a, 0, small],
            1 => [small, 1 + next(state, 4), 5 + next(state, 4)],
            2 => [a, small, a],
            3 => [small, small, b],
            _ => [a, 5 + c % 4, b],
        });
    }
    table
}

fn compare(plain: &PlainIntake, fast: &FastIntake) {
    let [mut triples, mut summary] = [(); 2].map(|()| vec![9; 3 * plain.slots]);
    let (mut weights, mut map) = (vec![9; plain.slots], vec![9; plain.roster.len()]);
    let [mut held, mut summarised] = [9; 2];
    plain.put_state(
        Mistake::None,
        State {
            triples: &mut triples,
            summary: &mut summary,
            weights: &mut weights,
            map: &mut map,
            held: &mut held,
            summarised: &mut summarised,
        },
    );
    assert_eq!((held, summarised), (fast.held, fast.summarised));
    assert_eq!(triples, fast.triples);
    assert_eq!(map, fast.map);
    assert_eq!(summary, fast.summary);
    assert_eq!(weights, fast.weights);
    assert_eq!(weights.iter().sum::<u32>() as usize, held);
}

/// The same intake in three ways.
struct Three {
    plain: PlainIntake,
    fast: FastIntake,
    lists_only: FastIntake,
}

impl Three {
    fn new(words: Words, roster: &[u8], slots: usize) -> Three {
        let [fast, lists_only] = [(); 2].map(|()| FastIntake::new(words, roster, slots));
        Three { plain: PlainIntake::new(words, roster, slots), fast, lists_only }
    }

    fn compare(&self) {
        compare(&self.plain, &self.fast);
        compare(&self.plain, &self.lists_only);
    }

    fn feed(&mut self, t: [u32; 3]) -> Result<(bool, usize), u32> {
        let answer = self.plain.feed(Mistake::None, t, 2 * self.plain.roster.len());
        assert_eq!(answer, feed_fast(&mut self.fast, t));
        assert_eq!(answer, feed_lists_only(&mut self.lists_only, t));
        self.compare();
        answer
    }

    fn remove(&mut self, t: [u32; 3]) -> Result<usize, u32> {
        let answer = self.plain.remove(Mistake::None, t, 2 * self.plain.roster.len());
        assert_eq!(answer, remove_fast(&mut self.fast, t));
        assert_eq!(answer, remove_lists_only(&mut self.lists_only, t));
        self.compare();
        answer
    }
}

/// A random site: its words, its roster and its triples.
fn random_site(state: &mut u64) -> (Words, Vec<u8>, Vec<u32>) {
    let n = 12 + next(state, 20) as u64;
    let words = random_words(state, n);
    let mut table = random_table(state, n);
    load(words, n, &mut table);
    let mut roster = vec![0; n as usize];
    assert_eq!(own_roster(words.codes(), &table, &mut roster), 0);
    (words, roster, table)
}

#[test]
fn fast_intake_is_the_plain_one() {
    let mut state = 1;
    for _ in 0..3_000 {
        let (words, roster, table) = random_site(&mut state);
        let slots = table.len() / 3;
        let mut three = Three::new(words, &roster, slots);
        for t in table.chunks_exact(3) {
            assert!(three.feed([t[0], t[1], t[2]]).is_ok());
        }
        compare(&three.plain, &FastIntake::holding(words, &roster, slots, &table));
    }
}

/// Feeds and removals in turns, about half of each, until all is removed.
#[test]
fn fast_removals_are_the_plain_ones() {
    let mut state = 2;
    let mut answers = [0; 4];
    for _ in 0..3_000 {
        let (words, roster, table) = random_site(&mut state);
        let slots = table.len() / 3;
        let mut three = Three::new(words, &roster, 1 + slots / 2);
        let count = slots as u64;
        for _ in 0..4 * slots {
            let i = 3 * next(&mut state, count) as usize;
            let t = [table[i], table[i + 1], table[i + 2]];
            match next(&mut state, 2) {
                0 => answers[three.feed(t).is_ok() as usize] += 1,
                _ => answers[2 + three.remove(t).is_ok() as usize] += 1,
            }
        }
        for t in table.chunks_exact(3) {
            answers[2 + three.remove([t[0], t[1], t[2]]).is_ok() as usize] += 1;
        }
        assert_eq!((three.fast.held, three.fast.summarised), (0, 0));
        assert!(three.fast.map.iter().all(|&entry| entry == ABSENT));
    }
    assert!(answers.iter().all(|&count| count > 1_000), "{answers:?}");
}

/// A triple that is removed, its place, and what is left: the lines with their weights, and the nodes with their representatives.
type Removal<'a> = ([u32; 3], usize, &'a [([u32; 3], u32)], &'a [(usize, u32)]);

/// Feeds these triples to an intake of 24 codes, and removes one after the other.
fn removes(table: &[[u32; 3]], removals: &[Removal]) {
    let mut roster = vec![0; 24];
    assert_eq!(own_roster(Words::RDFS.codes(), &table.concat(), &mut roster), 0);
    let mut three = Three::new(Words::RDFS, &roster, table.len());
    for &t in table {
        assert!(three.feed(t).is_ok_and(|(is_new, _)| is_new));
    }
    for &(t, place, lines, nodes) in removals {
        assert_eq!(three.remove(t), Ok(place));
        assert_eq!(three.remove(t), Err(9));
        let (summary, weights): (Vec<_>, Vec<_>) = lines.iter().copied().unzip();
        assert_eq!(three.fast.summary[..3 * lines.len()], summary.concat());
        assert_eq!(three.fast.weights[..lines.len()], weights);
        assert_eq!(three.fast.summarised, lines.len());
        let mut map = vec![ABSENT; 24];
        nodes.iter().for_each(|&(code, representative)| map[code] = representative);
        assert_eq!(three.fast.map, map);
    }
}

#[test]
fn removals_by_hand() {
    let chain = [[5, 8, 7], [7, 8, 9], [9, 8, 10]];
    removes(&chain, &[([7, 8, 9], 1, &[([5, 8, 7], 2)], &[(5, 5), (7, 7), (9, 5), (10, 7)])]);
    removes(&[[5, 6, 5], [5, 6, 8]], &[([5, 6, 5], 0, &[([5, 6, 8], 1)], &[(5, 5), (8, 8)])]);
    removes(
        &[[10, 0, 8], [11, 0, 9], [11, 5, 12]],
        &[
            ([11, 5, 12], 2, &[([10, 0, 8], 1), ([10, 0, 9], 1)], &[(8, 8), (9, 9), (10, 10), (11, 10)]),
            ([10, 0, 8], 0, &[([11, 0, 9], 1)], &[(9, 9), (11, 11)]),
            ([11, 0, 9], 0, &[], &[]),
        ],
    );
    removes(
        &[[10, 5, 20], [10, 5, 21], [11, 5, 20], [11, 5, 21]],
        &[
            ([11, 5, 21], 3, &[([10, 5, 20], 3)], &[(10, 10), (11, 10), (20, 20), (21, 20)]),
            ([10, 5, 20], 0, &[([10, 5, 20], 2)], &[(10, 10), (11, 10), (20, 20), (21, 20)]),
            ([10, 5, 21], 0, &[([11, 5, 20], 1)], &[(11, 11), (20, 20)]),
        ],
    );
    removes(
        &[[8, 1, 9], [10, 0, 8], [10, 5, 20]],
        &[([10, 0, 8], 1, &[([8, 1, 9], 1), ([10, 5, 20], 1)], &[(8, 8), (9, 9), (10, 10), (20, 20)])],
    );
}
