//! The strong summary, by a hash map from a node's two cliques to the smallest node that has them.

use crate::triples::PackedMap;
use crate::weak::{condense, Side};
use crate::words::Words;
use crate::{Mistake, ABSENT};

/// A source clique and a target clique, each by its smallest property, or absent.
fn pair(source: u32, target: u32) -> u64 {
    (source as u64) << 32 | target as u64
}

/// The node chosen for each pair of cliques.
#[derive(Default)]
struct Classes(PackedMap<u32>);

impl Classes {
    /// The first node that came with this pair, now or before.
    fn choose(&mut self, mistake: Mistake, source: u32, target: u32, node: u32) -> u32 {
        let lacks_one = source == ABSENT || target == ABSENT;
        if mistake == Mistake::NoneMatchesNothing && lacks_one {
            return node;
        }
        let chosen = *self.0.entry(pair(source, target)).or_insert(node);
        if mistake == Mistake::NoneMatchesAll {
            self.0.entry(pair(source, ABSENT)).or_insert(chosen);
            self.0.entry(pair(ABSENT, target)).or_insert(chosen);
        }
        chosen
    }
}

/// Puts each node's representative, absent for a code that is no node.
fn put_strong_map(mistake: Mistake, words: Words, table: &[u32], roster: &[u8], map: &mut [u32]) {
    let [mut sources, mut targets] = [0, 2].map(|place| Side::new(mistake, words, table, roster, place));
    map.fill(ABSENT);
    for t in table.chunks_exact(3) {
        map[t[0] as usize] = t[0];
        map[t[2] as usize] = t[2];
    }
    let mut classes = Classes::default();
    let represent = |node: u32| {
        if roster[node as usize] == 0 && map[node as usize] != ABSENT {
            map[node as usize] = classes.choose(mistake, sources.of_node(node), targets.of_node(node), node);
        }
    };
    if mistake == Mistake::FirstSeen {
        table.chunks_exact(3).flat_map(|t| [t[0], t[2]]).for_each(represent);
    } else {
        (0..roster.len() as u32).for_each(represent);
    }
}

pub fn summarise_strong(
    words: &[u32],
    table: &[u32],
    roster: &[u8],
    result: &mut [u32],
    map: &mut [u32],
    work: &mut [u32],
    count: &mut usize,
) -> u32 {
    summarise_strong_with(Mistake::None, words, table, roster, [result, map, work], count)
}

pub fn summarise_strong_with(
    mistake: Mistake,
    words: &[u32],
    table: &[u32],
    roster: &[u8],
    lists: [&mut [u32]; 3],
    count: &mut usize,
) -> u32 {
    condense(words, table, roster, lists, count, |words, map| put_strong_map(mistake, words, table, roster, map))
}
