//! Cliques, representatives and the weak summary, by a textbook union-find.

use crate::triples::{pack, put_sorted, PackedSet};
use crate::words::{Kind, Words};
use crate::{checks, Mistake, ABSENT, LENGTH, OK, SLOTS};

struct UnionFind(Vec<u32>);

impl UnionFind {
    fn new(n: usize) -> UnionFind {
        UnionFind((0..n as u32).collect())
    }

    /// The root, with path halving.
    fn find(&mut self, mut x: u32) -> u32 {
        while self.0[x as usize] != x {
            let parent = self.0[x as usize];
            self.0[x as usize] = self.0[parent as usize];
            x = parent;
        }
        x
    }

    /// Joins two sets; the smaller root stays.
    fn union(&mut self, a: u32, b: u32) {
        let (a, b) = (self.find(a), self.find(b));
        self.0[a.max(b) as usize] = a.min(b);
    }

    /// Joins x with the member noted in `first`, or notes x there.
    fn join_first(&mut self, first: &mut u32, x: u32) {
        if *first == ABSENT {
            *first = x;
        } else {
            self.union(*first, x);
        }
    }
}

/// The cliques of one side.
pub struct Side {
    sets: UnionFind,
    /// A property that each node has at this side.
    first: Vec<u32>,
    has_clique: Vec<bool>,
}

impl Side {
    /// Place 0 of a triple gives source cliques, place 2 target cliques.
    pub fn new(mistake: Mistake, words: Words, table: &[u32], roster: &[u8], place: usize) -> Side {
        let words = mistake.words(words);
        let n = roster.len();
        let mut side = Side { sets: UnionFind::new(n), first: vec![ABSENT; n], has_clique: vec![false; n] };
        for t in table.chunks_exact(3).filter(|t| words.is_data(t[1])) {
            let node = t[place] as usize;
            if roster[node] == 0 || mistake == Mistake::ClassLinks {
                side.sets.join_first(&mut side.first[node], t[1]);
                side.has_clique[t[1] as usize] = true;
            }
        }
        side
    }

    /// The smallest property of each property's clique, absent where it has none.
    fn put(&mut self, out: &mut [u32]) {
        for (p, entry) in out.iter_mut().enumerate() {
            *entry = if self.has_clique[p] { self.sets.find(p as u32) } else { ABSENT };
        }
    }

    /// The smallest property of a node's clique, absent where it has none.
    pub fn of_node(&mut self, node: u32) -> u32 {
        match self.first[node as usize] {
            ABSENT => ABSENT,
            property => self.sets.find(property),
        }
    }
}

pub fn cliques(words: &[u32], table: &[u32], roster: &[u8], sources: &mut [u32], targets: &mut [u32]) -> u32 {
    cliques_with(Mistake::None, words, table, roster, sources, targets)
}

pub fn cliques_with(
    mistake: Mistake,
    words: &[u32],
    table: &[u32],
    roster: &[u8],
    sources: &mut [u32],
    targets: &mut [u32],
) -> u32 {
    let n = roster.len();
    let Some(words) = Words::of(words) else {
        return LENGTH;
    };
    if checks::lengths_wrong(table, roster) || sources.len() != n || targets.len() != n {
        return LENGTH;
    }
    let refusal = checks::table_refusal(words, table, roster);
    if refusal != OK {
        return refusal;
    }
    Side::new(mistake, words, table, roster, 0).put(sources);
    Side::new(mistake, words, table, roster, 2).put(targets);
    OK
}

/// What one pass over the table tells of its nodes.
pub struct Nodes {
    sets: UnionFind,
    /// In the order in which they are first seen.
    seen: Vec<u32>,
    is_node: Vec<bool>,
    is_subject: Vec<bool>,
    is_object: Vec<bool>,
    stays_typed: Vec<bool>,
}

impl Nodes {
    fn new(n: usize) -> Nodes {
        Nodes {
            sets: UnionFind::new(n),
            seen: Vec::new(),
            is_node: vec![false; n],
            is_subject: vec![false; n],
            is_object: vec![false; n],
            stays_typed: vec![false; n],
        }
    }

    fn see(&mut self, code: u32) {
        if !self.is_node[code as usize] {
            self.is_node[code as usize] = true;
            self.seen.push(code);
        }
    }

    fn has_data(&self, code: u32) -> bool {
        self.is_subject[code as usize] || self.is_object[code as usize]
    }

    /// Whether a data node joins those without any clique.
    fn is_bare(&self, mistake: Mistake, code: u32) -> bool {
        match mistake {
            Mistake::NoSourceEqual => !self.is_subject[code as usize],
            Mistake::TypedOnlyStays => !self.has_data(code) || self.stays_typed[code as usize],
            _ => !self.has_data(code),
        }
    }
}

/// Joins the subjects of each property and its objects, as far as they are data nodes.
fn join_nodes(mistake: Mistake, words: Words, table: &[u32], roster: &[u8]) -> Nodes {
    let words = mistake.words(words);
    let n = roster.len();
    let mut nodes = Nodes::new(n);
    let mut subject_of = vec![ABSENT; n];
    let mut object_of = vec![ABSENT; n];
    let links = |code: u32| roster[code as usize] == 0 || mistake == Mistake::ClassLinks;
    for t in table.chunks_exact(3) {
        let (s, p, o) = (t[0], t[1] as usize, t[2]);
        nodes.see(s);
        nodes.see(o);
        if mistake == Mistake::TypedOnlyStays && words.kind(t[1]) == Kind::Type && !nodes.has_data(s) {
            nodes.stays_typed[s as usize] = true;
        }
        if !words.is_data(t[1]) {
            continue;
        }
        if links(s) && !nodes.stays_typed[s as usize] {
            nodes.is_subject[s as usize] = true;
            nodes.sets.join_first(&mut subject_of[p], s);
        }
        if links(o) && !nodes.stays_typed[o as usize] {
            nodes.is_object[o as usize] = true;
            nodes.sets.join_first(&mut object_of[p], o);
        }
    }
    nodes
}

/// Joins the data nodes without any clique.
fn join_bare(mistake: Mistake, nodes: &mut Nodes, roster: &[u8]) {
    let mut first = ABSENT;
    for i in 0..nodes.seen.len() {
        let code = nodes.seen[i];
        if roster[code as usize] == 0 && nodes.is_bare(mistake, code) {
            nodes.sets.join_first(&mut first, code);
        }
    }
}

/// Puts each node's representative, absent for a code that is no node.
pub fn put_map(mistake: Mistake, words: Words, table: &[u32], roster: &[u8], map: &mut [u32]) {
    let mut nodes = join_nodes(mistake, words, table, roster);
    join_bare(mistake, &mut nodes, roster);
    map.fill(ABSENT);
    if mistake != Mistake::FirstSeen {
        nodes.seen.sort_unstable();
    }
    let mut chosen = vec![ABSENT; roster.len()];
    for &code in &nodes.seen {
        let c = code as usize;
        if roster[c] != 0 {
            map[c] = code;
            continue;
        }
        let root = nodes.sets.find(code) as usize;
        if chosen[root] == ABSENT {
            chosen[root] = code;
        }
        map[c] = chosen[root];
    }
}

/// The triple with its ends replaced by their representatives.
pub fn image(t: &[u32], map: &[u32]) -> [u32; 3] {
    [map[t[0] as usize], t[1], map[t[2] as usize]]
}

/// The images of the triples under the map.
fn images(table: &[u32], map: &[u32]) -> PackedSet {
    table.chunks_exact(3).map(|t| pack(&image(t, map))).collect()
}

pub fn summarise(
    words: &[u32],
    table: &[u32],
    roster: &[u8],
    result: &mut [u32],
    map: &mut [u32],
    work: &mut [u32],
    count: &mut usize,
) -> u32 {
    summarise_with(Mistake::None, words, table, roster, [result, map, work], count)
}

pub fn summarise_with(
    mistake: Mistake,
    words: &[u32],
    table: &[u32],
    roster: &[u8],
    lists: [&mut [u32]; 3],
    count: &mut usize,
) -> u32 {
    condense(words, table, roster, lists, count, |words, map| put_map(mistake, words, table, roster, map))
}

/// The checks, the map as it is put, and the images.
pub fn condense(
    words: &[u32],
    table: &[u32],
    roster: &[u8],
    [result, map, work]: [&mut [u32]; 3],
    count: &mut usize,
    put_map: impl FnOnce(Words, &mut [u32]),
) -> u32 {
    let n = roster.len();
    let Some(words) = Words::of(words) else {
        return LENGTH;
    };
    if checks::lengths_wrong(table, roster) || map.len() != n || work.len() != 2 * n {
        return LENGTH;
    }
    let refusal = checks::table_refusal(words, table, roster);
    if refusal != OK {
        return refusal;
    }
    put_map(words, map);
    work.fill(0);
    let found = images(table, map);
    if found.len() > result.len() / 3 {
        result.fill(0);
        map.fill(0);
        return SLOTS;
    }
    *count = found.len();
    put_sorted(found.into_iter().collect(), result);
    OK
}
