//! The intake: opening, and the plain one of the papers.

use crate::removal::{put_left, Left};
use crate::triples::{pack, unpack, Packed};
use crate::weak::put_map;
use crate::weights::{weigh_with, Mapped, Weighed};
use crate::{checks, Mistake, Words, ABSENT, CODE, COVER, FULL, LENGTH, MAX_TRIPLES, OK};
use std::collections::BTreeSet;

/// What a feed answers: whether the triple was new and how many triples held before come before it, or the number of the refusal.
pub type Fed = Result<(bool, usize), u32>;

/// What a removal answers: how many triples held before come before the triple, or the number of the refusal.
pub type Removed = Result<usize, u32>;

/// What an intake keeps, as a call borrows it.
pub struct State<'a> {
    pub triples: &'a mut [u32],
    pub summary: &'a mut [u32],
    pub weights: &'a mut [u32],
    pub map: &'a mut [u32],
    pub held: &'a mut usize,
    pub summarised: &'a mut usize,
}

impl State<'_> {
    /// Whether a length is wrong with n codes, as far as an engine with a mistake looks.
    pub fn lengths_wrong(&self, mistake: Mistake, n: usize) -> bool {
        let slots = self.triples.len() / 3;
        let weights_wrong = self.weights.len() != slots && mistake != Mistake::WeightsUnchecked;
        self.summary.len() / 3 != slots || slots > MAX_TRIPLES || weights_wrong || self.map.len() != n
    }
}

pub fn open(words: &[u32], roster: &[u8], state: State) -> u32 {
    open_with(Mistake::None, words, roster, state)
}

pub fn open_with(mistake: Mistake, words: &[u32], roster: &[u8], state: State) -> u32 {
    let Some(words) = Words::of(words) else {
        return LENGTH;
    };
    if checks::size_wrong(roster.len()) || state.lengths_wrong(mistake, roster.len()) {
        return LENGTH;
    }
    let refusal = checks::roster_refusal(words, roster);
    if refusal != OK {
        return refusal;
    }
    state.triples.fill(0);
    state.summary.fill(0);
    if mistake != Mistake::WeightsNotZeroed {
        state.weights.fill(0);
    }
    state.map.fill(ABSENT);
    (*state.held, *state.summarised) = (0, 0);
    OK
}

/// The refusals 3 and 4 of a triple that is fed or removed.
fn triple_refusal(words: Words, t: [u32; 3], roster: &[u8]) -> u32 {
    if checks::triple_wrong(words, &t, roster.len()) {
        return CODE;
    }
    if !checks::covered(words, &t, roster) {
        return COVER;
    }
    OK
}

/// The refusals 1, 10, 2, 3 and 4 of a feed or a removal with these words and this roster and with lists of right lengths.
pub fn call_refusal(words: &[u32], roster: &[u8], t: [u32; 3]) -> u32 {
    let Some(words) = Words::of(words) else {
        return LENGTH;
    };
    if checks::size_wrong(roster.len()) {
        return LENGTH;
    }
    match checks::roster_refusal(words, roster) {
        OK => triple_refusal(words, t, roster),
        refusal => refusal,
    }
}

/// An accepted call with its triple.
#[derive(Clone, Copy)]
enum Last {
    /// A feed, and whether the triple was new.
    Fed([u32; 3], bool),
    Removed([u32; 3]),
}

/// The plain intake of the papers: a set of triples, empty at opening.
pub struct PlainIntake {
    pub words: Words,
    pub roster: Vec<u8>,
    pub slots: usize,
    pub held: BTreeSet<Packed>,
    /// The last call that was accepted, and the number of removals. Only mistakes go by them.
    last: Option<Last>,
    removed: usize,
}

impl PlainIntake {
    pub fn new(words: Words, roster: &[u8], slots: usize) -> PlainIntake {
        PlainIntake { words, roster: roster.to_vec(), slots, held: BTreeSet::new(), last: None, removed: 0 }
    }

    /// How many triples held come before the triple, with a mistake.
    pub fn place(&self, mistake: Mistake, t: [u32; 3]) -> usize {
        let t = pack(&t);
        match mistake {
            Mistake::EqualsCount => self.held.range(..=t).count(),
            Mistake::PlaceAtEnd if !self.held.contains(&t) => self.held.len(),
            _ => self.held.range(..t).count(),
        }
    }

    /// Whether every slot holds a triple, or by mistake held one.
    fn is_full(&self, mistake: Mistake) -> bool {
        let lost = if mistake == Mistake::SlotNotFreed { self.removed } else { 0 };
        self.held.len() + lost >= self.slots
    }

    pub fn feed(&mut self, mistake: Mistake, t: [u32; 3], work_length: usize) -> Fed {
        if work_length != 2 * self.roster.len() {
            return Err(LENGTH);
        }
        let refusal = triple_refusal(self.words, t, &self.roster);
        if refusal != OK {
            return Err(refusal);
        }
        let place = self.place(mistake, t);
        let is_new = !self.held.contains(&pack(&t));
        if is_new && self.is_full(mistake) {
            return Err(FULL);
        }
        self.held.insert(pack(&t));
        self.last = Some(Last::Fed(t, is_new));
        Ok((is_new, place))
    }

    pub fn remove(&mut self, mistake: Mistake, t: [u32; 3], work_length: usize) -> Removed {
        if work_length != 2 * self.roster.len() {
            return Err(LENGTH);
        }
        let is_held = self.held.contains(&pack(&t));
        let refusal = triple_refusal(self.words, t, &self.roster);
        if refusal != OK && (is_held || mistake != Mistake::MissingFirst) {
            return Err(refusal);
        }
        let place = self.place(mistake, t);
        if !is_held {
            return if mistake == Mistake::MissingAccepted { Ok(place) } else { Err(mistake.missing()) };
        }
        self.held.remove(&pack(&t));
        self.removed += 1;
        self.last = Some(Last::Removed(t));
        Ok(if mistake == Mistake::RemovedAtEnd { self.held.len() } else { place })
    }

    /// The triples held, in rising order.
    pub fn table(&self) -> Vec<u32> {
        self.held.iter().flat_map(|&t| unpack(t)).collect()
    }

    /// The summary of what is held after a feed, with its weights, by an engine with a mistake.
    fn weighed(&self, mistake: Mistake, now: Mapped, fed: [u32; 3], is_new: bool) -> Weighed {
        let earlier = self.held.iter().filter(|&&t| !is_new || t != pack(&fed));
        let table: Vec<u32> = earlier.flat_map(|&t| unpack(t)).collect();
        let mut map = vec![ABSENT; self.roster.len()];
        put_map(mistake, self.words, &table, &self.roster, &mut map);
        weigh_with(mistake, Mapped { table: &table, map: &map }, now, &fed, is_new)
    }

    /// Puts the map of what is held, and gives its summary with the weights.
    fn put_map(&self, mistake: Mistake, table: &[u32], map: &mut [u32]) -> Weighed {
        put_map(mistake, self.words, table, &self.roster, map);
        match self.last.filter(|_| mistake != Mistake::None) {
            Some(Last::Fed(fed, is_new)) => self.weighed(mistake, Mapped { table, map }, fed, is_new),
            Some(Last::Removed(t)) => put_left(mistake, &self.left(table, t), map),
            None => Mapped { table, map }.weigh(),
        }
    }

    fn left<'a>(&'a self, table: &'a [u32], t: [u32; 3]) -> Left<'a> {
        Left { words: self.words, roster: &self.roster, table, t }
    }

    /// Puts what the calls so far must have left. A list of weights that is too short takes what it can.
    pub fn put_state(&self, mistake: Mistake, state: State) {
        let table = self.table();
        let weighed = self.put_map(mistake, &table, state.map);
        (*state.held, *state.summarised) = (self.held.len(), weighed.len());
        let lines: Vec<u32> = weighed.keys().flat_map(|&t| unpack(t)).collect();
        for (list, part) in [(&mut *state.triples, &table), (state.summary, &lines)] {
            list.fill(0);
            list[..part.len()].copy_from_slice(part);
        }
        if let (Mistake::SlotNotZeroed, Some(Last::Removed(t))) = (mistake, self.last) {
            let last = self.held.last().map_or(t, |&u| unpack(u.max(pack(&t))));
            state.triples[table.len()..table.len() + 3].copy_from_slice(&last);
        }
        if mistake != Mistake::StaleWeights {
            state.weights.fill(0);
        }
        for (place, &weight) in state.weights.iter_mut().zip(weighed.values()) {
            *place = weight;
        }
    }

    /// Puts what an accepted call leaves in the work list.
    pub fn put_work(&self, mistake: Mistake, work: &mut [u32]) {
        if let (Mistake::WorkLeft, Some(Last::Removed(t))) = (mistake, self.last) {
            if self.left(&self.table(), t).keeps_ends() {
                return;
            }
        }
        work.fill(0);
    }
}
