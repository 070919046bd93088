//! Opening, feeds and removals, against the plain intake and from altered states.

use crate::generate::{self, other_length};
use crate::random::Random;
use crate::report::{Call, Outcome, Report};
use crate::tables::run;
use crate::words::{self, Words, RDFS};
use weak_summary::calls as proved;
use weak_summary_reference::{self as plain, Mistake, PlainIntake};

/// The calls on an open intake.
#[derive(Clone, Copy, PartialEq, Eq, Debug)]
pub enum Kind {
    Feed,
    Remove,
}

impl Kind {
    pub fn call(self) -> Call {
        match self {
            Kind::Feed => Call::Feed,
            Kind::Remove => Call::Remove,
        }
    }

    fn altered_call(self) -> Call {
        match self {
            Kind::Feed => Call::FeedAltered,
            Kind::Remove => Call::RemoveAltered,
        }
    }

    /// The refusal that no other call gives.
    fn own_refusal(self) -> u32 {
        match self {
            Kind::Feed => plain::FULL,
            Kind::Remove => plain::MISSING,
        }
    }
}

/// Everything lent to opening, to a feed or to a removal; `place` is written also by a feed or a removal that is refused.
#[derive(Clone, PartialEq, Eq, Debug)]
pub struct Lent {
    pub words: Vec<u32>,
    pub roster: Vec<u8>,
    pub triples: Vec<u32>,
    pub summary: Vec<u32>,
    pub weights: Vec<u32>,
    pub map: Vec<u32>,
    pub work: Vec<u32>,
    pub held: usize,
    pub summarised: usize,
    pub is_new: u32,
    pub place: usize,
    pub t: [u32; 3],
}

impl Lent {
    /// What the proved engine borrows, and the two numbers that take a feed's answers.
    fn borrowed(&mut self) -> (proved::Lent<'_>, &mut u32, &mut usize) {
        let state = proved::State {
            triples: &mut self.triples,
            summary: &mut self.summary,
            weights: &mut self.weights,
            map: &mut self.map,
            held: &mut self.held,
            summarised: &mut self.summarised,
        };
        let lent = proved::Lent { words: &self.words, roster: &self.roster, state, work: &mut self.work };
        (lent, &mut self.is_new, &mut self.place)
    }

    /// What an intake keeps, for the unverified engine.
    fn state(&mut self) -> plain::State<'_> {
        plain_state(self.borrowed().0.state)
    }

    /// The triples held, as far as the list goes.
    pub fn held(&self) -> &[[u32; 3]] {
        let slots = self.triples.as_chunks::<3>().0;
        &slots[..self.held.min(slots.len())]
    }
}

fn plain_state(state: proved::State) -> plain::State {
    let proved::State { triples, summary, weights, map, held, summarised } = state;
    plain::State { triples, summary, weights, map, held, summarised }
}

/// Lists full of junk.
pub fn junk_lists(random: &mut Random, words: &[u32], roster: &[u8], slots: usize) -> Lent {
    let n = roster.len();
    let tails = [random.below(3), random.below(3)];
    Lent {
        words: words.to_vec(),
        roster: roster.to_vec(),
        triples: random.junk(3 * slots + tails[0]),
        summary: random.junk(3 * slots + tails[1]),
        weights: random.junk(slots),
        map: random.junk(n),
        work: random.junk(2 * n),
        held: random.below(1 << 40),
        summarised: random.below(1 << 40),
        is_new: random.next() as u32,
        place: random.junk_count(),
        t: [0; 3],
    }
}

/// Opens with both engines and gives what the proved one left.
pub fn compare_open(report: &mut Report, mistake: Mistake, before: &Lent) -> Outcome<Lent> {
    let ours = run(before, |l| {
        let lent = l.borrowed().0;
        proved::open(lent.words, lent.roster, lent.state)
    });
    let theirs = run(before, |l| {
        let lent = l.borrowed().0;
        plain::open_with(mistake, lent.words, lent.roster, plain_state(lent.state))
    });
    report.compare(Call::Open, before, ours.clone(), theirs, true);
    ours
}

/// A length that a list of weights does not have: one less, one more, that of a triple list, or none; without slots it may be the right one.
fn other_weights(random: &mut Random, slots: usize) -> usize {
    random.pick(&[slots.saturating_sub(1), slots + 1, 3 * slots, 0])
}

/// Makes a length wrong; an empty list may stay empty.
fn damage_length(random: &mut Random, lent: &mut Lent) {
    let slots = lent.triples.len() / 3;
    let list = match random.below(5) {
        0 => &mut lent.triples,
        1 => &mut lent.summary,
        2 => &mut lent.map,
        _ => return lent.weights.resize(other_weights(random, slots), 3),
    };
    list.resize(other_length(random, list.len()), 3);
}

pub fn open(random: &mut Random, report: &mut Report, mistake: Mistake) {
    let site = generate::site(random);
    let slots = random.below(30);
    let mut lent = junk_lists(random, &site.words, &site.roster, slots);
    if random.chance(40) {
        damage_length(random, &mut lent);
    }
    compare_open(report, mistake, &lent);
}

/// Opens with these words, this roster and lists of these slots.
pub fn open_with(random: &mut Random, report: &mut Report, words: &Words, roster: &[u8], slots: usize) {
    let lent = junk_lists(random, words, roster, slots);
    compare_open(report, Mistake::None, &lent);
}

/// Opens with triple lists of so many slots, and with as many weights, or more, or fewer.
pub fn open_weighed(random: &mut Random, report: &mut Report, mistake: Mistake, slots: usize) {
    for weights in [slots, slots - 1, slots + 1, 3 * slots, 0] {
        let mut lent = junk_lists(random, &RDFS, &[0; 6], slots);
        lent.weights = random.junk(weights);
        compare_open(report, mistake, &lent);
    }
}

/// What a call must answer and leave.
fn expected(kind: Kind, intake: &mut PlainIntake, before: &Lent, mistake: Mistake) -> Outcome<Lent> {
    let counted = intake.place(mistake, before.t);
    let mut outcome = judged(kind, intake, before, mistake);
    if outcome.status != plain::OK {
        outcome.lent.place = mistake.refused_place(outcome.status, before.place, counted);
    }
    outcome
}

/// The same but for the place after a refusal: refusals 1, 10 and 2 of lists, words and a roster that were damaged, then the plain
/// intake.
fn judged(kind: Kind, intake: &mut PlainIntake, lent: &Lent, mistake: Mistake) -> Outcome<Lent> {
    let mut lent = lent.clone();
    let n = intake.roster.len();
    if lent.words.len() != 5 || lent.roster.len() != n || lent.state().lengths_wrong(mistake, n) {
        return Outcome { status: plain::LENGTH, lent };
    }
    let as_opened = lent.words == intake.words.codes() && lent.roster == intake.roster;
    if lent.work.len() == 2 * n && !as_opened {
        let status = plain::call_refusal(&lent.words, &lent.roster, lent.t);
        return Outcome { status, lent };
    }
    let answer = match kind {
        Kind::Feed => intake.feed(mistake, lent.t, lent.work.len()),
        Kind::Remove => intake.remove(mistake, lent.t, lent.work.len()).map(|place| (false, place)),
    };
    let (is_new, place) = match answer {
        Err(status) => return Outcome { status, lent },
        Ok(answer) => answer,
    };
    intake.put_state(mistake, lent.state());
    intake.put_work(mistake, &mut lent.work);
    lent.place = place;
    if kind == Kind::Feed {
        lent.is_new = is_new as u32;
    }
    Outcome { status: plain::OK, lent }
}

/// Calls the proved engine.
fn call(kind: Kind, l: &mut Lent) -> u32 {
    let t = l.t;
    let (lent, is_new, place) = l.borrowed();
    match kind {
        Kind::Feed => proved::feed(lent, t, is_new, place),
        Kind::Remove => proved::remove(lent, t, place),
    }
}

/// Compares a call with the plain intake, and gives what the proved engine left.
pub fn compare_call(
    report: &mut Report,
    kind: Kind,
    intake: &mut PlainIntake,
    before: &Lent,
    mistake: Mistake,
) -> Outcome<Lent> {
    let ours = run(before, |l| call(kind, l));
    let theirs = expected(kind, intake, before, mistake);
    let yes = kind == Kind::Remove || theirs.lent.is_new == 1;
    report.compare(kind.call(), before, ours.clone(), theirs, yes);
    ours
}

/// Makes the words wrong, but not their number.
fn spoil_words(random: &mut Random, mut words: Words, lent: &mut Lent) {
    words::spoil(random, lent.roster.len(), &mut words);
    lent.words = words.to_vec();
}

/// Makes a list's length, the roster or the words wrong for one call, now and then the words too; all other lists stay as the call
/// before left them.
pub fn damage(random: &mut Random, words: Words, lent: &mut Lent) {
    let n = lent.roster.len();
    match random.below(13) {
        0 => lent.work.resize(other_length(random, 2 * n), 7),
        1 => lent.map.truncate(n - 1),
        2 => lent.triples.extend([0; 3]),
        3 => lent.summary.extend([0; 3]),
        4 => lent.roster[random.below(n)] = 4 + random.below(252) as u8,
        5 => lent.roster.truncate(n - 1),
        6 => lent.words.resize(words::other_length(random), 5),
        7..=9 => lent.weights.resize(other_weights(random, lent.triples.len() / 3), 0),
        10 => {
            // Triple lists of equal slots, one more than there are weights.
            lent.triples.extend([0; 3]);
            lent.summary.extend([0; 3]);
        }
        _ => spoil_words(random, words, lent),
    }
    if random.chance(10) {
        spoil_words(random, words, lent);
    }
}

/// Puts one number in place of some weights, or of all.
pub fn alter_weights(random: &mut Random, weights: &mut [u32]) {
    let value = random.pick(&[0, 1, u32::MAX - 1, u32::MAX]);
    let percent = random.pick(&[30, 100]);
    for weight in weights {
        if random.chance(percent) {
            *weight = value;
        }
    }
}

/// What must hold after a call on an altered state. Refusals 1, 10, 2, 3 and 4 are as ever, and any other answer is "new", "not new"
/// or 7 of a feed, and "removed" or 9 of a removal. After 7 and 9 nothing is altered, after "not new" only the work list, which is
/// zero. After "new" and "removed" the work list is zero, one more or one less is held and both counts are at most the slots; what
/// the other lists then hold, and what the count of the summary is, is open. The place is 0 after a refusal, and else at most the
/// number held before.
fn expect_altered(kind: Kind, before: &Lent, ours: &Outcome<Lent>) -> Outcome<Lent> {
    let mut expected = run(before, |l| {
        let n = l.roster.len();
        match l.state().lengths_wrong(Mistake::None, n) {
            true => plain::LENGTH,
            false => plain::call_refusal(&l.words, &l.roster, l.t),
        }
    });
    expected.lent.place = 0;
    if expected.status != plain::OK {
        return expected;
    }
    if ours.status == kind.own_refusal() {
        expected.status = ours.status;
        return expected;
    }
    let lent = &mut expected.lent;
    lent.work.fill(0);
    lent.place = ours.lent.place.min(before.held);
    let held = match kind {
        Kind::Feed => before.held.wrapping_add(1),
        Kind::Remove => before.held.wrapping_sub(1),
    };
    if kind == Kind::Feed {
        lent.is_new = ours.lent.is_new.min(1);
    }
    if kind == Kind::Remove || lent.is_new == 1 {
        let slots = before.triples.len() / 3;
        lent.triples.clone_from(&ours.lent.triples);
        lent.summary.clone_from(&ours.lent.summary);
        lent.weights.clone_from(&ours.lent.weights);
        lent.map.clone_from(&ours.lent.map);
        lent.held = held.min(slots);
        lent.summarised = ours.lent.summarised.min(slots);
    }
    expected
}

/// A call on an altered state, which another word table than at opening is too.
pub fn compare_altered(report: &mut Report, kind: Kind, before: &Lent) {
    let ours = run(before, |l| call(kind, l));
    let expected = expect_altered(kind, before, &ours);
    let yes = kind == Kind::Remove || ours.lent.is_new == 1;
    report.compare(kind.altered_call(), before, ours, expected, yes);
}

/// A call on lists and counts altered by hand.
pub fn altered(random: &mut Random, report: &mut Report, kind: Kind) {
    let site = generate::site(random);
    let n = site.n;
    let slots = random.below(12);
    let mut before = junk_lists(random, &site.words, &site.roster, slots);
    before.held = random.pick(&[0, 1, slots, slots + 1, usize::MAX]);
    before.summarised = random.pick(&[0, 1, slots, slots + 1, usize::MAX]);
    if random.chance(60) {
        let codes = 5 + random.below(n.max(6) - 5) as u32;
        for list in [&mut before.triples, &mut before.summary, &mut before.map] {
            list.iter_mut().for_each(|x| *x %= codes + 3);
        }
    }
    if random.chance(60) {
        alter_weights(random, &mut before.weights);
    }
    if random.chance(10) {
        damage_length(random, &mut before);
    }
    let table = if site.table.len().is_multiple_of(3) { &site.table[..] } else { &[] };
    before.t = generate::called(random, site.right_words, table, n);
    let percent = random.pick(&[0, 30, 100]);
    for slot in before.triples.as_chunks_mut::<3>().0 {
        if random.chance(percent) {
            *slot = before.t;
        }
    }
    compare_altered(report, kind, &before);
}
