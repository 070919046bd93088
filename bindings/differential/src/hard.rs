//! Tables and queries that use up the limits of ask's search: few nodes and properties, many patterns, and often no match.

use crate::random::Random;
use crate::words::{self, free_code, Words};
use weak_summary_reference::{ABSENT, QUERY_NUMBERS};

/// Two nodes, or the two variables of a pattern.
type Pair = [usize; 2];

/// A site's words, a table, a map to ask it with, and a query.
pub struct Hard {
    pub words: Words,
    pub table: Vec<u32>,
    pub map: Vec<u32>,
    pub query: Vec<u32>,
}

fn path(length: usize) -> Vec<Pair> {
    (0..length).map(|k| [k, k + 1]).collect()
}

fn cycle(length: usize) -> Vec<Pair> {
    (0..length).map(|k| [k, (k + 1) % length]).collect()
}

fn star(length: usize) -> Vec<Pair> {
    (1..=length).map(|k| [0, k]).collect()
}

fn tree(random: &mut Random, length: usize) -> Vec<Pair> {
    (1..=length).map(|k| [random.below(k), k]).collect()
}

/// Separate patterns, two paths, or a cycle and a path.
fn parts(random: &mut Random) -> Vec<Pair> {
    let split = 1 + random.below(3);
    let after = |start: usize, pairs: Vec<Pair>| pairs.into_iter().map(move |pair| pair.map(|v| start + v));
    match random.below(4) {
        0 | 1 => (0..4).map(|k| [2 * k, 2 * k + 1]).collect(),
        2 => path(split).into_iter().chain(after(split + 1, path(6 - split))).collect(),
        _ => path(5 - split).into_iter().chain(after(6 - split, cycle(split + 2))).collect(),
    }
}

/// Two cycles or more that hang together.
const CYCLES: [&[Pair]; 10] = [
    // A clique of four, and with a path to it.
    &[[0, 1], [0, 2], [0, 3], [1, 2], [1, 3], [2, 3]],
    &[[5, 4], [4, 3], [0, 1], [0, 2], [0, 3], [1, 2], [1, 3], [2, 3]],
    // A wheel of four spokes.
    &[[0, 1], [1, 2], [2, 3], [3, 0], [0, 4], [1, 4], [2, 4], [3, 4]],
    // Four double edges in a chain.
    &[[0, 1], [1, 0], [1, 2], [2, 1], [2, 3], [3, 2], [3, 4], [4, 3]],
    // Two cycles joined by a path.
    &[[0, 1], [1, 2], [2, 0], [2, 3], [3, 4], [4, 5], [5, 6], [6, 5]],
    &[[0, 1], [1, 2], [2, 0], [2, 3], [3, 4], [4, 5], [5, 3]],
    // Three double edges joined.
    &[[0, 1], [1, 0], [1, 2], [2, 3], [3, 2], [3, 4], [4, 5], [5, 4]],
    &[[0, 1], [1, 0], [1, 2], [2, 3], [3, 2], [2, 4], [4, 5], [5, 4]],
    &[[0, 1], [1, 0], [2, 1], [2, 3], [3, 2], [4, 3], [4, 5], [5, 4]],
    &[[0, 1], [1, 0], [1, 2], [2, 3], [3, 2], [4, 2], [4, 5], [5, 4]],
];

/// The variables of four to eight patterns.
fn form(random: &mut Random) -> Vec<Pair> {
    let length = 4 + random.below(4);
    match random.below(12) {
        0 | 1 => parts(random),
        2 => path(length),
        3 => star(length),
        4 => tree(random, length),
        5 | 6 => cycle(length + 1),
        7 => (0..length + 1).map(|_| [random.below(8), random.below(8)]).collect(),
        _ => random.pick(&CYCLES).to_vec(),
    }
}

/// How many patterns close a cycle.
fn closings(form: &[Pair]) -> usize {
    let mut labels = [0, 1, 2, 3, 4, 5, 6, 7];
    let mut closed = 0;
    for pair in form {
        let [from, to] = pair.map(|v| labels[v]);
        closed += (from == to) as usize;
        labels.iter_mut().filter(|label| **label == from).for_each(|label| *label = to);
    }
    closed
}

/// What a table and a query are made of.
struct Make {
    n: usize,
    nodes: Vec<u32>,
    properties: [u32; 2],
    /// The triples of each property, at most, and the kinds of their links.
    amounts: [usize; 2],
    kinds: [usize; 2],
    /// How many patterns, of the last, have the second property.
    last: usize,
}

/// Two properties, of which one may be type.
fn properties(random: &mut Random, words: &Words, n: usize) -> [u32; 2] {
    let [data, other] = [(); 2].map(|()| free_code(words, random.below(n - 5)));
    random.pick(&[[data, other], [data, words[0]], [words[0], data]])
}

/// So many different codes: side by side, far apart, or equal modulo 4,096 as far as there are such.
fn codes(random: &mut Random, words: &Words, n: usize, amount: usize) -> Vec<u32> {
    let free = n - words.len();
    let stride = random.pick(&[1, (free - 1) / amount, 4_096]);
    let wide = (free - amount) / stride + 1;
    let start = random.below(free - (wide.min(amount) - 1) * stride - (amount - 1) / wide);
    (0..amount).map(|k| free_code(words, start + k % wide * stride + k / wide)).collect()
}

/// A few nodes or more with links of any kind. Where codes share a bit a filter by bits lets more pass, so the table is small.
fn any(random: &mut Random, words: &Words, n: usize) -> Make {
    let most = 40 + random.below(if n > 4_096 { 20 } else { 161 });
    let second = random.pick(&[0, 1, most / 8, most / 2]);
    let nodes = 6 + random.below(24);
    Make {
        n,
        nodes: codes(random, words, n, nodes),
        properties: properties(random, words, n),
        amounts: [most - second, second],
        kinds: [(); 2].map(|()| random.below(KINDS)),
        last: random.below(4),
    }
}

/// Many cycles of the first property and few of the second, which the last cycle of a form has.
fn crowded(random: &mut Random, words: &Words, n: usize) -> Make {
    let nodes = 9 + random.below(6);
    let second = 10 + random.below(20);
    Make {
        n,
        nodes: codes(random, words, n, nodes),
        properties: properties(random, words, n),
        amounts: [200 - random.below(60) - second, second],
        kinds: [BOTH_WAYS, random.pick(&[0, 3, 4])],
        last: 2 + random.below(2),
    }
}

/// The kinds of links.
const KINDS: usize = 6;
const BOTH_WAYS: usize = 1;

/// Whether a link of this kind may lead from a to b.
fn may_lead(kind: usize, layers: usize, [a, b]: Pair) -> bool {
    match kind {
        0 | BOTH_WAYS => true,
        // From even numbers to odd ones: no path of two. Between even and odd ones: no odd cycle.
        2 => a % 2 == 0 && b % 2 == 1,
        3 => a % 2 != b % 2,
        // From each layer to the next, and from the last to the first: few cycles. Or no cycle.
        4 => (a + 1) % layers == b % layers,
        _ => a % layers + 1 == b % layers,
    }
}

/// Links of one kind between this many nodes.
fn links(random: &mut Random, kind: usize, nodes: usize, amount: usize) -> Vec<Pair> {
    let layers = 2 + random.below(4);
    let mut all: Vec<Pair> = Vec::new();
    for _ in 0..4 * amount {
        let pair = [random.below(nodes), random.below(nodes)];
        if all.len() < amount && may_lead(kind, layers, pair) {
            all.push(pair);
            all.extend(Some([pair[1], pair[0]]).filter(|_| kind == BOTH_WAYS));
        }
    }
    all
}

/// Triples of one or two properties, in rising order or not, with repeats or without.
fn table(random: &mut Random, make: &Make) -> Vec<u32> {
    let mut triples: Vec<[u32; 3]> = Vec::new();
    for i in 0..2 {
        let pairs = links(random, make.kinds[i], make.nodes.len(), make.amounts[i]);
        triples.extend(pairs.iter().map(|&[a, b]| [make.nodes[a], make.properties[i], make.nodes[b]]));
    }
    if random.chance(75) {
        triples.sort_unstable();
    }
    if random.chance(80) {
        triples.dedup();
    }
    triples.concat()
}

/// The codes as they are, or many codes for one node, and some for none.
fn map(random: &mut Random, make: &Make) -> Vec<u32> {
    if random.chance(50) {
        return (0..make.n as u32).collect();
    }
    (0..make.n).map(|_| if random.chance(10) { ABSENT } else { random.pick(&make.nodes) }).collect()
}

fn shuffle<T>(random: &mut Random, list: &mut [T]) {
    for i in (1..list.len()).rev() {
        list.swap(i, random.below(i + 1));
    }
}

/// The end of a pattern: its variable, or in so many of 100 a code.
fn end(random: &mut Random, variable: usize, fixed: usize, make: &Make) -> [u32; 2] {
    if !random.chance(fixed) {
        return [0, variable as u32];
    }
    let [node, code] = [random.pick(&make.nodes), random.below(make.n) as u32];
    [1, random.pick(&[node, code])]
}

/// A query of a form: some last patterns with the second property, some turned about, now and then a code or a variable twice;
/// the variables by other numbers, and mostly in another order.
fn query(random: &mut Random, form: &[Pair], make: &Make) -> Vec<u32> {
    let mut names: Vec<usize> = (0..8).collect();
    shuffle(random, &mut names);
    let (turned, fixed) = (random.pick(&[0, 0, 50]), random.pick(&[0, 0, 3, 12]));
    let mut patterns: Vec<Vec<u32>> = Vec::new();
    for (k, pair) in form.iter().enumerate() {
        let [mut a, mut b] = pair.map(|v| names[v]);
        if random.chance(turned) {
            (a, b) = (b, a);
        }
        let property = make.properties[(k + make.last >= form.len()) as usize];
        let [subject, object] = [a, if random.chance(1) { a } else { b }].map(|v| end(random, v, fixed, make));
        patterns.push([&subject[..], &[property], &object].concat());
    }
    if random.chance(70) {
        shuffle(random, &mut patterns);
    }
    let mut query = [vec![form.len() as u32], patterns.concat()].concat();
    query.resize(QUERY_NUMBERS, 0);
    query
}

pub fn hard(random: &mut Random) -> Hard {
    let form = form(random);
    let many = closings(&form) > 1;
    let n = match random.below(20) {
        0 if !many => 65_536 - random.below(3),
        1 | 2 => 4_096 + random.below(if many { 4_000 } else { 8_192 }),
        3..=7 => 100 + random.below(400),
        _ => 70 + random.below(10),
    };
    let words = words::right(random, n);
    let make = if many && n < 4_096 && random.chance(70) { crowded } else { any }(random, &words, n);
    let table = if random.chance(1) { Vec::new() } else { table(random, &make) };
    let map = map(random, &make);
    let query = query(random, &form, &make);
    Hard { words, table, map, query }
}
