//! Triples packed into one number, sets of them, and flat lists.

use crate::{checks, Mistake, LENGTH, OK};
use std::collections::{BTreeSet, HashMap, HashSet};
use std::hash::{BuildHasherDefault, Hasher};

/// A triple of accepted codes, 16 bits each, so that the order of numbers is the order of triples.
pub type Packed = u64;

pub fn pack(t: &[u32]) -> Packed {
    (t[0] as u64) << 32 | (t[1] as u64) << 16 | t[2] as u64
}

pub fn unpack(t: Packed) -> [u32; 3] {
    [(t >> 32) as u32, (t >> 16) as u32 & 0xffff, t as u32 & 0xffff]
}

/// One multiplication and a fold: enough for packed triples.
#[derive(Default)]
pub struct Mix(u64);

impl Hasher for Mix {
    fn finish(&self) -> u64 {
        self.0
    }

    fn write(&mut self, bytes: &[u8]) {
        for &b in bytes {
            self.write_u64(self.0 ^ b as u64);
        }
    }

    fn write_u64(&mut self, x: u64) {
        let product = (x as u128 + 1) * 0x9e37_79b9_7f4a_7c15_f39c;
        self.0 = (product >> 64) as u64 ^ product as u64;
    }
}

pub type PackedSet = HashSet<Packed, BuildHasherDefault<Mix>>;
pub type PackedMap<V> = HashMap<Packed, V, BuildHasherDefault<Mix>>;

/// Puts the triples in rising order at the start of the list and zeros behind. They must fit.
pub fn put_sorted(mut found: Vec<Packed>, list: &mut [u32]) {
    found.sort_unstable();
    let (front, rest) = list.split_at_mut(3 * found.len());
    for (slot, t) in front.chunks_exact_mut(3).zip(found) {
        slot.copy_from_slice(&unpack(t));
    }
    rest.fill(0);
}

/// Whether the triple is among these, and how many of them come before it, in one pass.
fn counted(triples: &[[u32; 3]], t: [u32; 3]) -> (bool, usize) {
    triples.iter().fold((false, 0), |(found, place), &u| (found | (u == t), place + (u < t) as usize))
}

/// The place with a mistake.
fn wrong_place(mistake: Mistake, triples: &[[u32; 3]], t: [u32; 3]) -> usize {
    match mistake {
        Mistake::EqualsCount => triples.iter().filter(|&u| *u <= t).count(),
        Mistake::RepeatsOnce => triples.iter().filter(|&u| *u < t).collect::<BTreeSet<_>>().len(),
        Mistake::StopsAtFound => triples.iter().take_while(|&u| *u != t).filter(|&u| *u < t).count(),
        Mistake::AsIfSorted => triples.partition_point(|&u| u < t),
        _ => counted(triples, t).1,
    }
}

/// Whether the triple is in the list, and how many triples of the list come before it.
pub fn look_up(list: &[u32], s: u32, p: u32, o: u32, found: &mut u32, place: &mut usize) -> u32 {
    if checks::table_length_wrong(list.len()) {
        *place = 0;
        return LENGTH;
    }
    let (triples, _) = list.as_chunks::<3>();
    let (is_found, before) = counted(triples, [s, p, o]);
    (*found, *place) = (is_found as u32, before);
    OK
}

pub fn look_up_with(mistake: Mistake, list: &[u32], t: [u32; 3], found: &mut u32, place: &mut usize) -> u32 {
    let left = *place;
    let status = look_up(list, t[0], t[1], t[2], found, place);
    let (triples, _) = list.as_chunks::<3>();
    *place = match status {
        OK => wrong_place(mistake, triples, t),
        refusal => mistake.refused_place(refusal, left, 0),
    };
    status
}
