//! Saturation by a work list. Rules 3, 6 and 7 to 10 draw on schema triples only and the others never give one, so schema triples
//! are worked off first; then each data and type triple is joined once with the closed schema.

use crate::triples::{pack, put_sorted, unpack, Packed, PackedSet};
use crate::words::Kind::{self, Data, Domain, Range, Subclass, Subproperty, Type};
use crate::{checks, Mistake, Words, LENGTH, OK, SLOTS};

/// For each code, the codes that a schema property leads to: the place of its list, from 1 on, or 0.
struct Links {
    place: Vec<u32>,
    lists: Vec<Vec<u32>>,
}

impl Links {
    fn new(n: usize) -> Links {
        Links { place: vec![0; n], lists: vec![Vec::new()] }
    }

    fn add(&mut self, from: u32, to: u32) {
        let place = &mut self.place[from as usize];
        if *place == 0 {
            *place = self.lists.len() as u32;
            self.lists.push(Vec::new());
        }
        self.lists[*place as usize].push(to);
    }

    fn of(&self, from: u32) -> &[u32] {
        &self.lists[self.place[from as usize] as usize]
    }
}

/// Rules 3, 6 and 7 to 10: the first premise's kind, the second's, and the conclusion's. The first's object is the second's
/// subject; the conclusion leads from the first's subject to the second's object.
const CHAINS: [[Kind; 3]; 6] = [
    [Subproperty, Subproperty, Subproperty],
    [Subclass, Subclass, Subclass],
    [Subproperty, Domain, Domain],
    [Subproperty, Range, Range],
    [Domain, Subclass, Domain],
    [Range, Subclass, Range],
];

/// For each schema property, from subject to objects and from object to subjects.
struct Schema {
    objects: [Links; 4],
    subjects: [Links; 4],
}

/// The place of a schema property among the four.
fn place(kind: Kind) -> usize {
    kind as usize - Subclass as usize
}

impl Schema {
    fn new(n: usize) -> Schema {
        Schema { objects: [(); 4].map(|()| Links::new(n)), subjects: [(); 4].map(|()| Links::new(n)) }
    }

    fn add(&mut self, s: u32, kind: Kind, o: u32) {
        self.objects[place(kind)].add(s, o);
        self.subjects[place(kind)].add(o, s);
    }

    fn objects(&self, s: u32, kind: Kind) -> &[u32] {
        self.objects[place(kind)].of(s)
    }

    fn subjects(&self, kind: Kind, o: u32) -> &[u32] {
        self.subjects[place(kind)].of(o)
    }
}

/// Distinct triples found so far, and those not yet worked off.
struct Found {
    known: PackedSet,
    todo: Vec<Packed>,
}

impl Found {
    fn add(&mut self, s: u32, p: u32, o: u32) {
        let t = pack(&[s, p, o]);
        if self.known.insert(t) {
            self.todo.push(t);
        }
    }
}

fn is_schema(words: Words, t: &[u32]) -> bool {
    !matches!(words.kind(t[1]), Type | Data)
}

/// Closes the schema triples; false if there are more than `slots`.
fn close_schema(words: Words, found: &mut Found, schema: &mut Schema, slots: usize) -> bool {
    while let Some(t) = found.todo.pop() {
        if found.known.len() > slots {
            return false;
        }
        let [s, p, o] = unpack(t);
        let kind = words.kind(p);
        schema.add(s, kind, o);
        for [first, second, conclusion] in CHAINS {
            if first == kind {
                for &end in schema.objects(o, second) {
                    found.add(s, words.code(conclusion), end);
                }
            }
            if second == kind {
                for &start in schema.subjects(first, s) {
                    found.add(start, words.code(conclusion), o);
                }
            }
        }
    }
    true
}

/// Joins each data and type triple with the closed schema; false if there are more than `slots`.
fn work_off(words: Words, found: &mut Found, schema: &Schema, slots: usize) -> bool {
    let type_code = words.code(Type);
    while let Some(t) = found.todo.pop() {
        if found.known.len() > slots {
            return false;
        }
        let [s, p, o] = unpack(t);
        if p == type_code {
            for &class in schema.objects(o, Subclass) {
                found.add(s, type_code, class);
            }
            continue;
        }
        for &property in schema.objects(p, Subproperty) {
            found.add(s, property, o);
        }
        for &class in schema.objects(p, Domain) {
            found.add(s, type_code, class);
        }
        for &class in schema.objects(p, Range) {
            found.add(o, type_code, class);
        }
    }
    true
}

/// The saturation, or nothing if it has more than `slots` triples.
fn saturation(words: Words, table: &[u32], n: usize, slots: usize) -> Option<PackedSet> {
    let mut found = Found { known: PackedSet::default(), todo: Vec::new() };
    let mut schema = Schema::new(n);
    for t in table.chunks_exact(3).filter(|t| is_schema(words, t)) {
        found.add(t[0], t[1], t[2]);
    }
    if !close_schema(words, &mut found, &mut schema, slots) {
        return None;
    }
    for t in table.chunks_exact(3).filter(|t| !is_schema(words, t)) {
        found.add(t[0], t[1], t[2]);
    }
    if !work_off(words, &mut found, &schema, slots) {
        return None;
    }
    (found.known.len() <= slots).then_some(found.known)
}

/// What rules 3, 6 and 7 to 10 give.
fn chained(words: Words, a: [u32; 3], b: [u32; 3]) -> Option<[u32; 3]> {
    let kinds = [words.kind(a[1]), words.kind(b[1])];
    let [.., conclusion] = CHAINS.into_iter().find(|c| c[..2] == kinds)?;
    (a[2] == b[0]).then_some([a[0], words.code(conclusion), b[2]])
}

/// What two premises give, in this order.
fn drawn(words: Words, a: [u32; 3], b: [u32; 3]) -> Option<[u32; 3]> {
    let type_code = words.code(Type);
    match words.kind(a[1]) {
        Domain if b[1] == a[0] => Some([b[0], type_code, a[2]]),
        Range if b[1] == a[0] => Some([b[2], type_code, a[2]]),
        Subproperty if b[1] == a[0] => Some([b[0], a[2], b[2]]),
        Subclass if b[1] == type_code && b[2] == a[0] => Some([b[0], type_code, a[2]]),
        _ => chained(words, a, b),
    }
}

/// A subclass or subproperty triple read the other way round; any other as it is.
fn turned(words: Words, [s, p, o]: [u32; 3]) -> [u32; 3] {
    match words.kind(p) {
        Subclass | Subproperty => [o, p, s],
        _ => [s, p, o],
    }
}

/// What two premises give where domains and ranges go from a property to those above it, and from a class to those below.
fn drawn_wrong_way(words: Words, a: [u32; 3], b: [u32; 3]) -> Option<[u32; 3]> {
    match (words.kind(a[1]), words.kind(b[1])) {
        (Subproperty, Domain | Range) | (Domain | Range, Subclass) => {
            chained(words, turned(words, a), turned(words, b))
        }
        _ => drawn(words, a, b),
    }
}

/// Rounds over all pairs, with a mistake.
fn with_mistake(mistake: Mistake, words: Words, table: &[u32], slots: usize) -> Option<PackedSet> {
    let draw = if mistake == Mistake::WrongWay { drawn_wrong_way } else { drawn };
    let mut known: PackedSet = table.chunks_exact(3).map(pack).collect();
    loop {
        let before: Vec<[u32; 3]> = known.iter().map(|&t| unpack(t)).collect();
        for &a in &before {
            known.extend(before.iter().filter_map(|&b| draw(words, a, b)).map(|t| pack(&t)));
        }
        if known.len() > slots {
            return None;
        }
        if mistake == Mistake::OneRound || known.len() == before.len() {
            return Some(known);
        }
    }
}

pub fn saturate(words: &[u32], table: &[u32], roster: &[u8], result: &mut [u32], count: &mut usize) -> u32 {
    saturate_with(Mistake::None, words, table, roster, result, count)
}

pub fn saturate_with(
    mistake: Mistake,
    words: &[u32],
    table: &[u32],
    roster: &[u8],
    result: &mut [u32],
    count: &mut usize,
) -> u32 {
    let Some(words) = Words::of(words) else {
        return LENGTH;
    };
    if checks::lengths_wrong(table, roster) {
        return LENGTH;
    }
    let refusal = checks::table_refusal(words, table, roster);
    if refusal != OK {
        return refusal;
    }
    let slots = result.len() / 3;
    let known = match mistake {
        Mistake::OneRound | Mistake::WrongWay => with_mistake(mistake, words, table, slots),
        _ => saturation(mistake.words(words), table, roster.len(), slots),
    };
    let Some(known) = known else {
        result.fill(0);
        return SLOTS;
    };
    *count = known.len();
    put_sorted(known.into_iter().collect(), result);
    OK
}
