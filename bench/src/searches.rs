//! Ask where trying the patterns as they are written takes too long: separate patterns, paths, stars, trees, cycles and cliques,
//! without a match and with one.

use crate::asks::{ask, open, query, Asked};
use crate::inputs;
use crate::measure::{heading, series, Settings};

/// The property of links, and the first of a star's eight.
const LINK: u32 = 5;
/// The property of the fourth of separate patterns, which has a triple only where there is a match.
const RARE: u32 = 6;
const FIRST_NODE: u32 = 20;

/// A table, and one of its nodes that patterns may name.
type Made = (Vec<u32>, u32);

/// From each node two links or, where it is dense, links to all nodes of the next layer; from the last layer to the first where
/// they go round.
fn layers(count: u32, round: bool, dense: bool, size: usize) -> Made {
    let gaps = if round { count } else { count - 1 };
    let each = size as u32 / gaps;
    let (nodes, links) = if dense { (each.isqrt(), each.isqrt()) } else { (each / 2, 2) };
    let mut table = Vec::new();
    for gap in 0..gaps {
        let [from, to] = [gap, (gap + 1) % count].map(|layer| FIRST_NODE + layer * nodes);
        for a in 0..nodes {
            (0..links).for_each(|j| table.extend([from + a, LINK, to + (links * a + j) % nodes]));
        }
    }
    (table, FIRST_NODE + count * nodes - 1)
}

/// Centres that have seven of eight properties, of each two triples or, where it is dense, sixteen; of the last property one, to the
/// same node.
fn stars(dense: bool, size: usize) -> Made {
    let links = if dense { 16 } else { 2 };
    let centres = size as u32 / (6 * links + 1);
    let end = FIRST_NODE + centres + links;
    let mut table = Vec::new();
    for k in 0..centres {
        let centre = FIRST_NODE + k;
        for p in (0..7).filter(|p| k % 7 != *p) {
            (0..links).for_each(|j| table.extend([centre, LINK + p, FIRST_NODE + centres + j]));
        }
        table.extend([centre, LINK + 7, end]);
    }
    (table, end)
}

/// Patterns that a table has no match for.
struct Shape {
    name: &'static str,
    /// The patterns, where these ends are a code.
    patterns: fn(u32) -> Vec<[u32; 5]>,
    make: fn(bool, usize) -> Made,
}

fn path(end: u32) -> Vec<[u32; 5]> {
    (0..7).map(|k| open(k, LINK, k + 1)).chain([[0, 7, LINK, 1, end]]).collect()
}

fn star(end: u32) -> Vec<[u32; 5]> {
    (0..7).map(|k| open(0, LINK + k, k + 1)).chain([[0, 0, LINK + 7, 1, end]]).collect()
}

fn tree(end: u32) -> Vec<[u32; 5]> {
    (1..8).map(|k| open((k - 1) / 2, LINK, k)).chain([[0, 7, LINK, 1, end]]).collect()
}

fn pairs(ends: &[[u32; 2]]) -> Vec<[u32; 5]> {
    ends.iter().map(|&[s, o]| open(s, LINK, o)).collect()
}

const CLIQUE: &str = "clique of four";
const TREE: &str = "tree of eight";
const CYCLE: &str = "cycle of eight";

/// The tables have too few layers, or three that go round.
const SHAPES: [Shape; 6] = [
    Shape {
        name: "three patterns apart and a fourth",
        patterns: |_| [pairs(&[[0, 1], [2, 3], [4, 5]]), vec![open(6, RARE, 7)]].concat(),
        make: |dense, size| layers(8, false, dense, size),
    },
    Shape { name: "path of eight", patterns: path, make: |dense, size| layers(8, false, dense, size) },
    Shape { name: "star of eight", patterns: star, make: stars },
    Shape { name: TREE, patterns: tree, make: |dense, size| layers(4, false, dense, size) },
    Shape {
        name: CYCLE,
        patterns: |_| (0..8).map(|k| open(k, LINK, (k + 1) % 8)).collect(),
        make: |dense, size| layers(3, true, dense, size),
    },
    Shape {
        name: CLIQUE,
        patterns: |_| pairs(&[[0, 1], [0, 2], [0, 3], [1, 2], [1, 3], [2, 3]]),
        make: |dense, size| layers(3, true, dense, size),
    },
];

/// Puts the patterns in the table, each variable at a node of its own behind all others.
fn put_match(table: &mut Vec<u32>, patterns: &[[u32; 5]], first: u32) {
    for &[kind, s, p, other, o] in patterns {
        let [subject, object] = [[kind, s], [other, o]].map(|[kind, x]| if kind == 1 { x } else { first + x });
        table.extend([subject, p, object]);
    }
}

/// The shape's table in rising order, the codes as they are, and no more codes than it takes.
fn asked(shape: &Shape, dense: bool, matches: bool, size: usize) -> (Asked, Vec<u32>) {
    let (mut table, end) = (shape.make)(dense, size);
    let patterns = (shape.patterns)(end);
    let n = end + 1 + 8;
    if matches {
        put_match(&mut table, &patterns, end + 1);
    }
    (Asked { table: inputs::sorted(&table), map: (0..n).collect() }, query(&patterns))
}

/// The sizes at which the proved engine takes less than a second, and with which there are not too many nodes.
fn sizes(shape: &Shape, dense: bool) -> &'static [usize] {
    const ALL: [usize; 6] = [256, 1_024, 4_096, 16_384, 65_536, 100_000];
    match (shape.name, dense) {
        (CYCLE | CLIQUE, true) => &ALL[..4],
        (CYCLE | TREE, false) => &ALL[..5],
        _ => &ALL,
    }
}

pub fn all(settings: &Settings) {
    let note = "Queries for which trying the patterns as they are written takes too long. Size: about the triples of the table, \
                which has one property (for a star eight) and no more codes than it takes; sizes rise fourfold, the last less. \
                Sparse: two links from each node, or two triples of each property of a star's centre. Dense: links from each node to \
                all of the next layer, or sixteen triples. The path's table has eight layers where nine are needed, the tree's four where five are \
                needed, the cycle's and the clique's three that go round; each centre of a star lacks a property, and no triple has \
                that of the fourth pattern apart. One match: the same table with one match behind all else. The clique has six \
                patterns, all pairs of four variables. Left out, because the proved engine takes over a second: the dense cycle and \
                the dense clique from 65,536 on, the sparse cycle at 100,000; and the sparse tree at 100,000, which has over 65,536 \
                nodes. Sparse tables from 16,384 on have more than 4,096 nodes, where the proved engine's sets of nodes filter \
                less. The plain engine searches with a limit of tries and then joins relations, one variable after the other.";
    heading("Ask, hard queries", note);
    for shape in &SHAPES {
        for (dense, matches) in [(false, false), (false, true), (true, false), (true, true)] {
            let density = if dense { "dense" } else { "sparse" };
            let found = if matches { "one match" } else { "no match" };
            series(settings, &format!("{density}: {}, {found}", shape.name), sizes(shape, dense), |size| {
                let (asked, query) = asked(shape, dense, matches, size);
                ask(settings, &asked, &query)
            });
        }
    }
}
