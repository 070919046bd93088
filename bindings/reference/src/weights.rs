//! How many triples each line of a summary stands for, and the mistakes that this invites.

use crate::triples::{pack, Packed, PackedMap};
use crate::weak::image;
use crate::{Mistake, ABSENT};
use std::collections::BTreeMap;

/// The lines of a summary in rising order, each with its weight: how many triples have it as their image.
pub type Weighed = BTreeMap<Packed, u32>;

/// The images of the triples, each with how many have it, in no order.
pub fn counted_images(table: &[u32], map: &[u32]) -> PackedMap<u32> {
    let mut counts = PackedMap::default();
    for t in table.chunks_exact(3) {
        *counts.entry(pack(&image(t, map))).or_insert(0) += 1;
    }
    counts
}

/// Triples and their map.
#[derive(Clone, Copy)]
pub struct Mapped<'a> {
    pub table: &'a [u32],
    pub map: &'a [u32],
}

impl Mapped<'_> {
    fn image(self, t: &[u32]) -> Packed {
        pack(&image(t, self.map))
    }

    pub fn weigh(self) -> Weighed {
        counted_images(self.table, self.map).into_iter().collect()
    }

    /// Whether the ends of a triple are nodes and its image is in the summary.
    fn has_image(self, t: &[u32]) -> bool {
        let is_node = |code: u32| self.map[code as usize] != ABSENT;
        is_node(t[0]) && is_node(t[2]) && self.weigh().contains_key(&self.image(t))
    }
}

/// The largest part of each weight that comes from one line of before, and the fed triple.
fn largest_parts(before: Mapped, now: Mapped, fed: &[u32]) -> Weighed {
    let mut parts = BTreeMap::new();
    for t in before.table.chunks_exact(3) {
        *parts.entry((now.image(t), before.image(t))).or_insert(0) += 1;
    }
    let mut weighed = Weighed::new();
    for ((line, _), part) in parts {
        let weight = weighed.entry(line).or_insert(0);
        *weight = part.max(*weight);
    }
    *weighed.entry(now.image(fed)).or_insert(0) += 1;
    weighed
}

/// The weights after a feed that was accepted, with a mistake, from what was held before it and what is held now.
pub fn weigh_with(mistake: Mistake, before: Mapped, now: Mapped, fed: &[u32], is_new: bool) -> Weighed {
    let mut weighed = now.weigh();
    let own = weighed.get_mut(&now.image(fed)).expect("the fed triple is held");
    match mistake {
        Mistake::RepeatWeighs if !is_new => *own += 1,
        Mistake::WeightsOfOld if is_new && !before.has_image(fed) => *own -= 1,
        Mistake::WeightLostOnMerge if is_new => return largest_parts(before, now, fed),
        Mistake::WeightNeverFalls => {
            for (line, weight) in before.weigh() {
                weighed.entry(line).and_modify(|now| *now = weight.max(*now));
            }
        }
        _ => {}
    }
    weighed
}
