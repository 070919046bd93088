//! Large tables in which strong classes are many or long.

use crate::words::{free_code, Words};

/// The table of these triples of places among the codes that are no words.
fn table(words: &Words, triples: impl Iterator<Item = [usize; 3]>) -> Vec<u32> {
    triples.flatten().map(|place| free_code(words, place)).collect()
}

/// One property and 60,000 subjects.
fn star(words: &Words) -> Vec<u32> {
    table(words, (0..60_000).map(|k| [2 + k, 0, 1]))
}

/// 21,000 properties, each with its own subject and object.
fn own_ends(words: &Words) -> Vec<u32> {
    let many = 21_000;
    table(words, (0..many).map(|k| [many + k, k, 2 * many + k]))
}

/// 30,000 properties, each with its own node, which is subject and object.
fn own_loops(words: &Words) -> Vec<u32> {
    let many = 30_000;
    table(words, (0..many).map(|k| [many + k, k, many + k]))
}

/// 32,000 nodes with one source clique, each with its own target clique.
fn one_source(words: &Words) -> Vec<u32> {
    let (many, from, to) = (32_000, 64_001, 64_002);
    table(words, (0..many).flat_map(|k| [[1 + k, 0, to], [from, 1 + many + k, 1 + k]]))
}

/// 100 source cliques and 100 target cliques; each pair has six nodes, far apart.
fn grid(words: &Words) -> Vec<u32> {
    let (each, nodes, from, to) = (100, 60_000, 60_200, 60_201);
    let node = |k| 2 * each + k;
    table(words, (0..nodes).flat_map(|k| [[node(k), k % each, to], [from, each + k / each % each, node(k)]]))
}

/// All of them; each has less than 65,536 codes.
pub fn all(words: &Words) -> [Vec<u32>; 5] {
    [star, own_ends, own_loops, one_source, grid].map(|shape| shape(words))
}
