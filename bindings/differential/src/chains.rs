//! Chains of calls on an intake, from its opening on: feeds alone, and feeds and removals, about as many of each.

use crate::generate;
use crate::intakes::{alter_weights, compare_altered, compare_call, compare_open, damage, junk_lists, Kind, Lent};
use crate::kept;
use crate::random::Random;
use crate::report::{Call, Report};
use crate::words::{self, Words};
use weak_summary_reference::{self as plain, Mistake, PlainIntake};

/// What makes a table with these words, so many codes and so many triples.
type Make = fn(&mut Random, Words, usize, usize) -> Vec<u32>;

/// An open intake, the triples that are fed to it and removed from it, and what it must hold.
struct Chain<'a> {
    random: &'a mut Random,
    report: &'a mut Report,
    mistake: Mistake,
    words: Words,
    table: Vec<u32>,
    intake: PlainIntake,
    /// What the proved engine has left.
    state: Lent,
    /// How many triples were new since opening, less those removed.
    held: u64,
}

impl<'a> Chain<'a> {
    /// Opens an intake of so many slots for a random table with n codes.
    fn open(
        random: &'a mut Random,
        report: &'a mut Report,
        mistake: Mistake,
        make: Make,
        [n, amount, slots]: [usize; 3],
    ) -> Chain<'a> {
        let words = words::right(random, n);
        let table = make(random, words, n, amount);
        let roster = generate::roster(random, words, n, &table);
        let lent = junk_lists(random, &words, &roster, slots);
        let state = compare_open(report, mistake, &lent).lent;
        let intake = PlainIntake::new(plain::Words::new(words), &roster, slots);
        Chain { random, report, mistake, words, table, intake, state, held: 0 }
    }

    /// What is lent to the next call: the state as it was left, a triple, and junk.
    fn next(&mut self, t: [u32; 3]) -> Lent {
        let work = self.random.junk(2 * self.state.roster.len());
        let (is_new, place) = (self.random.next() as u32, self.random.junk_count());
        Lent { work, is_new, place, t, ..self.state.clone() }
    }

    /// A call that is lent all that it should be; gives its status.
    fn call(&mut self, kind: Kind, t: [u32; 3]) -> u32 {
        let before = self.next(t);
        let ours = compare_call(self.report, kind, &mut self.intake, &before, self.mistake);
        if ours.status == plain::OK {
            self.count(kind, &before, &ours.lent);
        }
        self.state = ours.lent;
        self.check_weights(kind);
        ours.status
    }

    fn count(&mut self, kind: Kind, before: &Lent, after: &Lent) {
        match kind {
            Kind::Feed => self.held += (after.is_new == 1) as u64,
            Kind::Remove => {
                self.held = self.held.wrapping_sub(1);
                self.report.removed(kept::removal(&self.words, before, &after.map));
            }
        }
    }

    /// That the weights add up to the number of triples that were new since opening, less those removed.
    fn check_weights(&mut self, kind: Kind) {
        let total: u64 = self.state.weights.iter().map(|&weight| weight as u64).sum();
        let what = "the weights do not add up to the triples that were new, less those removed";
        self.report.require(kind.call(), total == self.held, what, &self.state);
    }

    /// A call, now and then one that is lent something wrong or altered, after which the chain goes on as before it.
    fn step(&mut self, kind: Kind) {
        let t = self.triple(kind);
        let mut before = self.next(t);
        match self.random.below(100) {
            0..=7 => {
                damage(self.random, self.words, &mut before);
                compare_call(self.report, kind, &mut self.intake, &before, self.mistake);
            }
            8 | 9 => {
                before.words = words::right(self.random, before.roster.len()).to_vec();
                compare_altered(self.report, kind, &before);
            }
            10 | 11 => {
                alter_weights(self.random, &mut before.weights);
                compare_altered(self.report, kind, &before);
            }
            _ => {
                let status = self.call(kind, t);
                if kind == Kind::Remove && status == plain::OK {
                    self.remove_again(t);
                }
            }
        }
    }

    /// Removes a triple once more: it is not held.
    fn remove_again(&mut self, t: [u32; 3]) {
        let status = self.call(Kind::Remove, t);
        let what = "a triple that was removed is removed again";
        self.report.require(Call::Remove, status == plain::MISSING, what, &self.state);
    }

    /// A triple for a call: any, but mostly one that is not held for a feed, and one that is held for a removal.
    fn triple(&mut self, kind: Kind) -> [u32; 3] {
        let n = self.state.roster.len();
        let tries = if self.random.chance(60) { 8 } else { 1 };
        let mut t = generate::called(self.random, self.words, &self.table, n);
        for _ in 1..tries {
            if self.state.held().binary_search(&t).is_ok() == (kind == Kind::Remove) {
                break;
            }
            t = generate::called(self.random, self.words, &self.table, n);
        }
        t
    }

    /// Feeds the whole table.
    fn fill(&mut self) {
        for i in (0..self.table.len()).step_by(3) {
            self.call(Kind::Feed, [self.table[i], self.table[i + 1], self.table[i + 2]]);
        }
    }

    /// Feeds and removals in random order, so many together, and one more for each triple that was removed.
    fn mix(&mut self, calls: usize) {
        for _ in 0..calls {
            let kind = self.random.pick(&[Kind::Feed, Kind::Remove]);
            self.step(kind);
        }
    }
}

/// A chain of feeds of a random table with n codes.
pub fn feed(
    random: &mut Random,
    report: &mut Report,
    mistake: Mistake,
    make: Make,
    [n, amount, feeds, slots]: [usize; 4],
) {
    let mut chain = Chain::open(random, report, mistake, make, [n, amount, slots]);
    for _ in 0..feeds {
        chain.step(Kind::Feed);
    }
}

/// A chain of feeds and removals of a random table with n codes, half of the time from when all its triples were fed.
pub fn mix(
    random: &mut Random,
    report: &mut Report,
    mistake: Mistake,
    make: Make,
    [n, amount, calls, slots]: [usize; 4],
) {
    let is_filled = random.chance(50);
    let mut chain = Chain::open(random, report, mistake, make, [n, amount, slots]);
    if is_filled {
        chain.fill();
    }
    chain.mix(calls);
}

/// The sizes of a chain over a small random site: codes, triples, calls and slots.
fn small_sizes(random: &mut Random) -> [usize; 4] {
    let n = generate::size(random).min(2_200);
    let amount = 1 + generate::amount(random);
    let calls = random.below(amount + 12);
    let slots = random.pick(&[0, 1, amount / 2, amount / 2, amount, amount, 2 * amount]);
    [n, amount, calls, slots]
}

/// The sizes of a chain that puts nodes with types together and apart.
fn typed_sizes(random: &mut Random) -> [usize; 4] {
    let n = generate::TYPED_SIZE + random.below(12);
    let amount = 8 + random.below(24);
    let slots = random.pick(&[amount / 2, amount, amount]);
    [n, amount, amount, slots]
}

/// Chains of feeds over small sites.
pub fn feeds(random: &mut Random, report: &mut Report, mistake: Mistake) {
    let sizes = small_sizes(random);
    feed(random, report, mistake, generate::table, sizes);
    let sizes = typed_sizes(random);
    feed(random, report, mistake, generate::typed_table, sizes);
}

/// Chains of feeds and removals over small sites.
pub fn mixes(random: &mut Random, report: &mut Report, mistake: Mistake) {
    let sizes = small_sizes(random);
    mix(random, report, mistake, generate::table, sizes);
    let [n, amount, calls, slots] = typed_sizes(random);
    mix(random, report, mistake, generate::typed_table, [n, amount, 2 * calls, slots]);
    let more = random.below(6);
    let amount = 4 + more + random.below(6);
    mix(random, report, mistake, generate::chains_table, [generate::CHAINS_SIZE + more, amount, 2 * amount, amount]);
}

/// A chain of feeds and removals over a site of a few hundred triples with many nodes of each kind, from when all were fed.
pub fn kinds(random: &mut Random, report: &mut Report, mistake: Mistake) {
    let n = generate::KINDS_SIZE + random.below(60);
    let amount = 100 + random.below(300);
    let slots = random.pick(&[amount / 2, amount, amount]);
    let mut chain = Chain::open(random, report, mistake, generate::kinds_table, [n, amount, slots]);
    chain.fill();
    chain.mix(amount);
}
