//! What is left when a triple was removed: whether the others keep its ends, and the mistakes that this invites.

use crate::ends::{links, SIDES};
use crate::triples::pack;
use crate::weak::{image, put_map};
use crate::weights::{Mapped, Weighed};
use crate::{Mistake, Words, ABSENT};

/// The triples that are left, in rising order, and the one that was removed.
pub struct Left<'a> {
    pub words: Words,
    pub roster: &'a [u8],
    pub table: &'a [u32],
    pub t: [u32; 3],
}

impl Left<'_> {
    fn triples(&self) -> &[[u32; 3]] {
        self.table.as_chunks::<3>().0
    }

    fn has(&self, test: impl Fn(&[u32; 3]) -> bool) -> bool {
        self.triples().iter().any(test)
    }

    fn is_node(&self, code: u32) -> bool {
        self.has(|u| u[0] == code || u[2] == code)
    }

    /// Whether the property of the triple links its end at a side.
    fn links(&self, side: usize) -> bool {
        links(self.words, self.roster, self.t, side)
    }

    /// Whether a triple has the property and, at that side, the end.
    fn has_at(&self, side: usize) -> bool {
        let (property, end) = (self.t[1], self.t[SIDES[side]]);
        self.has(|u| u[1] == property && u[SIDES[side]] == end)
    }

    /// Whether the others keep both ends, so that the map stays: an end that the property links at that side, any other as a node.
    pub fn keeps_ends(&self) -> bool {
        [0, 1].into_iter().all(|side| match self.links(side) {
            true => self.has_at(side),
            false => self.is_node(self.t[SIDES[side]]),
        })
    }

    /// The same, given where the triple stood: others with its subject and property stood beside it.
    pub fn keeps_ends_at(&self, i: usize) -> bool {
        let beside = || self.triples()[i.saturating_sub(1)..].iter().take(2);
        let [s, p, o] = self.t;
        let keeps_subject = match self.links(0) {
            true => beside().any(|u| u[..2] == [s, p]),
            false => beside().any(|u| u[0] == s) || self.is_node(s),
        };
        keeps_subject && if self.links(1) { self.has_at(1) } else { self.is_node(o) }
    }

    /// Whether an engine with a mistake takes the map for unchanged; `weight` is that of the line before.
    fn seems_kept(&self, mistake: Mistake, weight: u32) -> bool {
        let [s, p, o] = self.t;
        let stays = self.is_node(s) && self.is_node(o) && weight > 1;
        let other = |side: usize| {
            let end = self.t[SIDES[side]];
            self.has(|u| match mistake {
                Mistake::AnyProperty => u[SIDES[side]] == end && self.words.is_data(u[1]),
                _ => u[1] == p && (u[0] == end || u[2] == end),
            })
        };
        match mistake {
            Mistake::ClassNotParted => stays,
            Mistake::SubjectKeeps => stays && self.has(|u| u[..2] == [s, p]),
            Mistake::AnyProperty | Mistake::EitherSide => [0, 1].into_iter().all(|side| match self.links(side) {
                true => other(side),
                false => self.is_node(self.t[SIDES[side]]),
            }),
            _ => false,
        }
    }

    /// Whether a code is a data node that has types only.
    fn is_typed_only(&self, code: usize) -> bool {
        let is_end = |u: &[u32; 3]| u[0] as usize == code || u[2] as usize == code;
        self.roster[code] == 0 && self.has(is_end) && !self.has(|u| is_end(u) && self.words.is_data(u[1]))
    }
}

/// Alters the map that is right after the removal, by the one before it.
fn spoil_map(mistake: Mistake, left: &Left, before: &[u32], map: &mut [u32]) {
    let ends = [left.t[0], left.t[2]].map(|end| end as usize);
    for code in (0..map.len()).filter(|&code| before[code] != ABSENT) {
        let representative = before[code];
        map[code] = match mistake {
            Mistake::VanishedStays if ends.contains(&code) && map[code] == ABSENT => representative,
            Mistake::RepresentativeStays if map[code] != ABSENT && map[representative as usize] == ABSENT => {
                representative
            }
            Mistake::TypedNotRejoined if ends.contains(&code) && left.is_typed_only(code) => code as u32,
            Mistake::TypedNotRejoined if left.is_typed_only(code) => representative,
            _ => map[code],
        };
    }
}

/// Puts what an engine with a mistake makes of the map after a removal, which holds the right one, and gives the summary with its
/// weights.
pub fn put_left(mistake: Mistake, left: &Left, map: &mut [u32]) -> Weighed {
    let table = [left.table, &left.t].concat();
    let mut before = vec![ABSENT; map.len()];
    put_map(mistake, left.words, &table, left.roster, &mut before);
    let line = pack(&image(&left.t, &before));
    let weight = Mapped { table: &table, map: &before }.weigh()[&line];
    if left.seems_kept(mistake, weight) {
        map.copy_from_slice(&before);
    }
    spoil_map(mistake, left, &before, map);
    let mut weighed = Mapped { table: left.table, map }.weigh();
    match mistake {
        Mistake::WeightNotLowered if left.keeps_ends() => {
            weighed.entry(line).and_modify(|weight| *weight += 1);
        }
        Mistake::EmptyLineKept if left.keeps_ends() => {
            weighed.entry(line).or_insert(0);
        }
        _ => {}
    }
    weighed
}
