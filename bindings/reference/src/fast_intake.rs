//! Faster intakes for the benchmark: one with notes of its own beside the lists, and one with the lists only.

use crate::ends::{Change, Ends, SIDES};
use crate::intake::{call_refusal, Fed, Removed};
use crate::removal::Left;
use crate::triples::{pack, unpack, Packed};
use crate::weak::{image, put_map};
use crate::weights::counted_images;
use crate::{Mistake, Words, ABSENT, FULL, MISSING, OK};

/// An intake over flat sorted lists that notes what it needs to keep the map, and makes it, the summary and the weights anew only
/// when the class of a node that it knows, and that stays, changes or may change.
#[derive(Clone)]
pub struct FastIntake {
    pub words: Words,
    pub roster: Vec<u8>,
    pub triples: Vec<u32>,
    pub summary: Vec<u32>,
    pub weights: Vec<u32>,
    pub map: Vec<u32>,
    pub held: usize,
    pub summarised: usize,
    /// Some data node that is subject, and some that is object, of each property.
    node_at: [Vec<u32>; 2],
    has_data: Vec<bool>,
    /// The representative of the nodes without any clique.
    bare: u32,
    /// How often codes are ends; noted from the first removal on, so that feeding alone does not pay for it.
    ends: Option<Ends>,
}

impl FastIntake {
    pub fn new(words: Words, roster: &[u8], slots: usize) -> FastIntake {
        let n = roster.len();
        FastIntake {
            words,
            roster: roster.to_vec(),
            triples: vec![0; 3 * slots],
            summary: vec![0; 3 * slots],
            weights: vec![0; slots],
            map: vec![ABSENT; n],
            held: 0,
            summarised: 0,
            node_at: [vec![ABSENT; n], vec![ABSENT; n]],
            has_data: vec![false; n],
            bare: ABSENT,
            ends: None,
        }
    }

    /// As feeding the triples of the table would leave it.
    pub fn holding(words: Words, roster: &[u8], slots: usize, table: &[u32]) -> FastIntake {
        let mut intake = FastIntake::new(words, roster, slots);
        let mut held: Vec<Packed> = table.chunks_exact(3).map(pack).collect();
        held.sort_unstable();
        held.dedup();
        intake.held = held.len();
        for (i, t) in held.into_iter().map(unpack).enumerate() {
            intake.triples[3 * i..3 * i + 3].copy_from_slice(&t);
            intake.note_ends(t);
        }
        intake.summarise_anew();
        intake
    }

    /// As a first removal would leave the notes.
    pub fn count_ends(&mut self) {
        let triples = &self.triples[..3 * self.held];
        self.ends.get_or_insert_with(|| Ends::of(self.words, &self.roster, triples));
    }

    fn is_marked(&self, node: u32) -> bool {
        self.roster[node as usize] != 0
    }

    /// The representative of a data node as an end of a property of which `first` is such an end; none if a class changes.
    fn with_data(&self, node: u32, first: u32) -> Option<u32> {
        let own = self.map[node as usize];
        let is_new = own == ABSENT;
        if first == ABSENT {
            let alone = if is_new { node } else { own };
            return (is_new || self.has_data[node as usize]).then_some(alone);
        }
        let joined = self.map[first as usize];
        (own == joined || (is_new && joined < node)).then_some(joined)
    }

    /// The representative of a data node as subject of a type triple; none if a class changes.
    fn with_type(&mut self, node: u32) -> Option<u32> {
        let own = self.map[node as usize];
        if own != ABSENT {
            return Some(own);
        }
        if self.bare == ABSENT {
            self.bare = node;
        }
        (self.bare <= node).then_some(self.bare)
    }

    /// Puts the representatives of the ends of a new triple; none if the map is to be made anew.
    fn put_ends(&mut self, t: [u32; 3]) -> Option<()> {
        let [s, p, o] = t;
        let is_data = self.words.is_data(p);
        self.map[s as usize] = match self.is_marked(s) {
            true => s,
            false if is_data => self.with_data(s, self.node_at[0][p as usize])?,
            false => self.with_type(s)?,
        };
        if is_data && !self.is_marked(s) {
            self.has_data[s as usize] = true;
        }
        self.map[o as usize] = match self.is_marked(o) {
            true => o,
            false => self.with_data(o, self.node_at[1][p as usize])?,
        };
        Some(())
    }

    fn note_ends(&mut self, t: [u32; 3]) {
        if let Some(ends) = &mut self.ends {
            ends.add(self.words, &self.roster, t);
        }
        let [s, p, o] = t;
        if self.words.is_data(p) {
            for (node, place) in [s, o].into_iter().zip(&mut self.node_at) {
                if self.roster[node as usize] == 0 {
                    place[p as usize] = node;
                    self.has_data[node as usize] = true;
                }
            }
        }
    }

    fn summarise_anew(&mut self) {
        let table = &self.triples[..3 * self.held];
        put_map(Mistake::None, self.words, table, &self.roster, &mut self.map);
        let mut found: Vec<(Packed, u32)> = counted_images(table, &self.map).into_iter().collect();
        found.sort_unstable();
        self.summarised = found.len();
        for ((slot, place), (t, weight)) in self.summary.chunks_exact_mut(3).zip(&mut self.weights).zip(found) {
            slot.copy_from_slice(&unpack(t));
            *place = weight;
        }
        self.summary[3 * self.summarised..].fill(0);
        self.weights[self.summarised..].fill(0);
        let is_bare = |&c: &usize| self.map[c] != ABSENT && self.roster[c] == 0 && !self.has_data[c];
        self.bare = (0..self.map.len()).find(is_bare).map_or(ABSENT, |c| c as u32);
    }
}

/// The place of the triple among the first `count`, and whether it stands there.
fn place(list: &[u32], count: usize, t: [u32; 3]) -> Result<usize, usize> {
    let (slots, _) = list[..3 * count].as_chunks::<3>();
    slots.binary_search(&t)
}

fn insert(list: &mut [u32], count: usize, i: usize, t: [u32; 3]) {
    list.copy_within(3 * i..3 * count, 3 * i + 3);
    list[3 * i..3 * i + 3].copy_from_slice(&t);
}

/// Takes the triple at a place out of the first `count`.
fn delete(list: &mut [u32], count: usize, i: usize) {
    list.copy_within(3 * i + 3..3 * count, 3 * i);
    list[3 * count - 3..3 * count].fill(0);
}

/// Takes in a triple as both ways of feeding do: its checks, and its place in the list if it is new.
fn take_in(intake: &mut FastIntake, t: [u32; 3]) -> Fed {
    let refusal = call_refusal(intake.words.codes(), &intake.roster, t);
    if refusal != OK {
        return Err(refusal);
    }
    let i = match place(&intake.triples, intake.held, t) {
        Ok(i) => return Ok((false, i)),
        Err(i) => i,
    };
    if intake.held == intake.triples.len() / 3 {
        return Err(FULL);
    }
    insert(&mut intake.triples, intake.held, i, t);
    intake.held += 1;
    Ok((true, i))
}

/// Feeds with the notes.
pub fn feed_fast(intake: &mut FastIntake, t: [u32; 3]) -> Fed {
    let answer = take_in(intake, t);
    let Ok((true, _)) = answer else {
        return answer;
    };
    let kept = intake.put_ends(t);
    intake.note_ends(t);
    if kept.is_none() {
        intake.summarise_anew();
        return answer;
    }
    let image = image(&t, &intake.map);
    match place(&intake.summary, intake.summarised, image) {
        Ok(j) => intake.weights[j] += 1,
        Err(j) => {
            insert(&mut intake.summary, intake.summarised, j, image);
            intake.weights.copy_within(j..intake.summarised, j + 1);
            intake.weights[j] = 1;
            intake.summarised += 1;
        }
    }
    answer
}

/// Feeds without the notes: where the image is not in the summary already, map, summary and weights are made anew.
pub fn feed_lists_only(intake: &mut FastIntake, t: [u32; 3]) -> Fed {
    let answer = take_in(intake, t);
    let Ok((true, _)) = answer else {
        return answer;
    };
    match place(&intake.summary, intake.summarised, image(&t, &intake.map)) {
        Ok(j) => intake.weights[j] += 1,
        Err(_) => intake.summarise_anew(),
    }
    answer
}

impl FastIntake {
    /// Some data node at a side of a property, found in the list; absent if there is none.
    fn found_at(&self, side: usize, property: u32) -> u32 {
        let (slots, _) = self.triples[..3 * self.held].as_chunks::<3>();
        let found = slots.iter().find(|u| u[1] == property && !self.is_marked(u[SIDES[side]]));
        found.map_or(ABSENT, |u| u[SIDES[side]])
    }

    /// Takes a triple that left off the notes, and gives what becomes of its two ends.
    fn forget_ends(&mut self, t: [u32; 3]) -> [Change; 2] {
        let ends = self.ends.as_mut().expect("the ends are counted");
        ends.take(self.words, &self.roster, t);
        let changes = [0, 1].map(|side| ends.change(self.words, &self.roster, &self.map, t, side));
        let has_left = [0, 1].map(|side| ends.has_left(self.words, &self.roster, t, side));
        for node in [t[0], t[2]] {
            self.has_data[node as usize] = ends.has_data(node);
        }
        for side in [0, 1] {
            if has_left[side] && self.node_at[side][t[1] as usize] == t[SIDES[side]] {
                self.node_at[side][t[1] as usize] = self.found_at(side, t[1]);
            }
        }
        changes
    }

    /// Takes one off the weight of a line, which goes if it then stands for no triple.
    fn lighten(&mut self, line: [u32; 3]) {
        let j = place(&self.summary, self.summarised, line).expect("the line of a triple that was held");
        self.weights[j] -= 1;
        if self.weights[j] == 0 {
            delete(&mut self.summary, self.summarised, j);
            self.weights[j..self.summarised].rotate_left(1);
            self.summarised -= 1;
        }
    }
}

/// Takes out a triple as both ways of removing do: its checks, and its place in the list, which it leaves.
fn take_out(intake: &mut FastIntake, t: [u32; 3]) -> Removed {
    let refusal = call_refusal(intake.words.codes(), &intake.roster, t);
    if refusal != OK {
        return Err(refusal);
    }
    let i = place(&intake.triples, intake.held, t).map_err(|_| MISSING)?;
    delete(&mut intake.triples, intake.held, i);
    intake.held -= 1;
    Ok(i)
}

/// Removes with the notes.
pub fn remove_fast(intake: &mut FastIntake, t: [u32; 3]) -> Removed {
    intake.count_ends();
    let i = take_out(intake, t)?;
    let changes = intake.forget_ends(t);
    if changes.contains(&Change::Anew) {
        intake.summarise_anew();
        return Ok(i);
    }
    intake.lighten(image(&t, &intake.map));
    for side in [0, 1].into_iter().filter(|&side| changes[side] == Change::Vanishes) {
        intake.map[t[SIDES[side]] as usize] = ABSENT;
    }
    Ok(i)
}

/// Removes without the notes: where the others do not keep both ends, map, summary and weights are made anew.
pub fn remove_lists_only(intake: &mut FastIntake, t: [u32; 3]) -> Removed {
    let i = take_out(intake, t)?;
    let table = &intake.triples[..3 * intake.held];
    let left = Left { words: intake.words, roster: &intake.roster, table, t };
    if left.keeps_ends_at(i) {
        intake.lighten(image(&t, &intake.map));
    } else {
        intake.summarise_anew();
    }
    Ok(i)
}
