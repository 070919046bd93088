//! How often codes are ends of triples: what a removal asks of the triples that are left.

use crate::triples::{pack, PackedMap};
use crate::Words;

/// The places of a triple's ends: its subject at side 0, its object at side 1.
pub const SIDES: [usize; 2] = [0, 2];

/// What becomes of an end of a triple that left.
#[derive(Clone, Copy, PartialEq, Eq, Debug)]
pub enum Change {
    /// Its class stays as it is.
    Stays,
    /// It is no node any more, and its class stays as it is without it.
    Vanishes,
    /// Its class may fall apart, become another, or have another representative.
    Anew,
}

/// Whether an end of a triple is a data node that the triple's property links at that side.
pub fn links(words: Words, roster: &[u8], t: [u32; 3], side: usize) -> bool {
    words.is_data(t[1]) && roster[t[SIDES[side]] as usize] == 0
}

/// Counts over the triples held.
#[derive(Clone)]
pub struct Ends {
    /// How many have a data node at a side of a property.
    at: PackedMap<u32>,
    /// How many data nodes are at each side of each property.
    nodes: [Vec<u32>; 2],
    /// How many ends each code is, and how many at a side of a property.
    all: Vec<u32>,
    linked: Vec<u32>,
}

impl Ends {
    pub fn of(words: Words, roster: &[u8], table: &[u32]) -> Ends {
        let zeros = || vec![0; roster.len()];
        let mut ends = Ends { at: PackedMap::default(), nodes: [zeros(), zeros()], all: zeros(), linked: zeros() };
        for t in table.chunks_exact(3) {
            ends.add(words, roster, [t[0], t[1], t[2]]);
        }
        ends
    }

    fn key(t: [u32; 3], side: usize) -> u64 {
        pack(&[side as u32, t[1], t[SIDES[side]]])
    }

    pub fn add(&mut self, words: Words, roster: &[u8], t: [u32; 3]) {
        for side in [0, 1] {
            let node = t[SIDES[side]] as usize;
            self.all[node] += 1;
            if links(words, roster, t, side) {
                self.linked[node] += 1;
                let count = self.at.entry(Ends::key(t, side)).or_insert(0);
                *count += 1;
                self.nodes[side][t[1] as usize] += (*count == 1) as u32;
            }
        }
    }

    pub fn take(&mut self, words: Words, roster: &[u8], t: [u32; 3]) {
        for side in [0, 1] {
            let node = t[SIDES[side]] as usize;
            self.all[node] -= 1;
            if links(words, roster, t, side) {
                self.linked[node] -= 1;
                let count = self.at.get_mut(&Ends::key(t, side)).expect("the triple was added");
                *count -= 1;
                if *count == 0 {
                    self.at.remove(&Ends::key(t, side));
                    self.nodes[side][t[1] as usize] -= 1;
                }
            }
        }
    }

    /// Whether a node is at a side of some property.
    pub fn has_data(&self, node: u32) -> bool {
        self.linked[node as usize] > 0
    }

    /// Whether an end of a triple that was taken is at that side of the property no more.
    pub fn has_left(&self, words: Words, roster: &[u8], t: [u32; 3], side: usize) -> bool {
        links(words, roster, t, side) && !self.at.contains_key(&Ends::key(t, side))
    }

    /// What becomes of an end of a triple that was taken, by the map as it was before.
    pub fn change(&self, words: Words, roster: &[u8], map: &[u32], t: [u32; 3], side: usize) -> Change {
        let node = t[SIDES[side]];
        let is_node = self.all[node as usize] > 0;
        let is_first = map[node as usize] == node;
        if !links(words, roster, t, side) {
            return match is_node {
                true => Change::Stays,
                false if roster[node as usize] != 0 || !is_first => Change::Vanishes,
                false => Change::Anew,
            };
        }
        if !self.has_left(words, roster, t, side) {
            return Change::Stays;
        }
        // Nobody else is there: it joined the node with no other.
        let was_alone = self.nodes[side][t[1] as usize] == 0;
        match is_node {
            true if was_alone && self.has_data(node) => Change::Stays,
            false if t[0] != t[2] && (was_alone || !is_first) => Change::Vanishes,
            _ => Change::Anew,
        }
    }
}
