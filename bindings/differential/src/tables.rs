//! Own roster, saturate, cliques, the two summaries and look up.

use crate::generate::{self, other_length, result_length, site};
use crate::random::Random;
use crate::report::{Call, Outcome, Report};
use weak_summary::calls as proved;
use weak_summary_reference::{self as plain, Mistake};

/// Everything lent to a call, inputs too.
#[derive(Clone, PartialEq, Eq, Debug)]
pub struct Lent {
    pub words: Vec<u32>,
    pub table: Vec<u32>,
    pub roster: Vec<u8>,
    pub result: Vec<u32>,
    pub map: Vec<u32>,
    pub work: Vec<u32>,
    pub number: usize,
}

/// Runs a call on its own copy of what is lent.
pub fn run<L: Clone>(before: &L, call: impl FnOnce(&mut L) -> u32) -> Outcome<L> {
    let mut lent = before.clone();
    let status = call(&mut lent);
    Outcome { status, lent }
}

/// A length that is now and then not the right one.
fn near(random: &mut Random, right: usize) -> usize {
    if random.chance(4) {
        other_length(random, right)
    } else {
        right
    }
}

pub fn own_roster(random: &mut Random, report: &mut Report) {
    let site = site(random);
    let roster = random.junk_bytes(site.n);
    compare_own_roster(report, (site.words, site.table, roster));
}

pub fn compare_own_roster(report: &mut Report, before: (Vec<u32>, Vec<u32>, Vec<u8>)) {
    let ours = run(&before, |(words, table, roster)| proved::own_roster(words, table, roster));
    let theirs = run(&before, |(words, table, roster)| plain::own_roster(words, table, roster));
    report.compare(Call::OwnRoster, &before, ours, theirs, true);
}

/// The number of triples of the saturation or summary, or 3 where there is none.
fn triples_of(status: u32, count: usize) -> usize {
    if status == 0 {
        count
    } else {
        3
    }
}

pub fn saturate(random: &mut Random, report: &mut Report, mistake: Mistake) {
    let site = site(random);
    let mut count = 0;
    let status = plain::saturate(&site.words, &site.table, &site.roster, &mut vec![0; 3 * 3_000], &mut count);
    let length = result_length(random, triples_of(status, count));
    let before = Lent {
        words: site.words,
        table: site.table,
        roster: site.roster,
        result: random.junk(length),
        map: Vec::new(),
        work: Vec::new(),
        number: random.below(1 << 40),
    };
    compare_saturate(report, mistake, before);
}

pub fn compare_saturate(report: &mut Report, mistake: Mistake, before: Lent) {
    let ours = run(&before, |l| proved::saturate(&l.words, &l.table, &l.roster, &mut l.result, &mut l.number));
    let theirs =
        run(&before, |l| plain::saturate_with(mistake, &l.words, &l.table, &l.roster, &mut l.result, &mut l.number));
    report.compare(Call::Saturate, &before, ours, theirs, true);
}

pub fn cliques(random: &mut Random, report: &mut Report, mistake: Mistake) {
    let site = site(random);
    let lengths = [near(random, site.n), near(random, site.n)];
    let before = Lent {
        words: site.words,
        table: site.table,
        roster: site.roster,
        result: random.junk(lengths[0]),
        map: random.junk(lengths[1]),
        work: Vec::new(),
        number: 0,
    };
    compare_cliques(report, mistake, before);
}

pub fn compare_cliques(report: &mut Report, mistake: Mistake, before: Lent) {
    let ours = run(&before, |l| proved::cliques(&l.words, &l.table, &l.roster, &mut l.result, &mut l.map));
    let theirs =
        run(&before, |l| plain::cliques_with(mistake, &l.words, &l.table, &l.roster, &mut l.result, &mut l.map));
    report.compare(Call::Cliques, &before, ours, theirs, true);
}

type Proved = fn(&[u32], &[u32], &[u8], &mut [u32], &mut [u32], &mut [u32], &mut usize) -> u32;
type Plain = fn(Mistake, &[u32], &[u32], &[u8], [&mut [u32]; 3], &mut usize) -> u32;

/// A summary by both engines.
pub struct Summary {
    call: Call,
    pub rework: Call,
    pub proved: Proved,
    pub plain: Plain,
}

pub const WEAK: Summary =
    Summary { call: Call::Summarise, rework: Call::Rework, proved: proved::summarise, plain: plain::summarise_with };

pub const STRONG: Summary = Summary {
    call: Call::SummariseStrong,
    rework: Call::ReworkStrong,
    proved: proved::summarise_strong,
    plain: plain::summarise_strong_with,
};

impl Summary {
    /// What the proved engine does and what the unverified one does.
    pub fn both(&self, mistake: Mistake, before: &Lent) -> [Outcome<Lent>; 2] {
        let ours = run(before, |l| {
            (self.proved)(&l.words, &l.table, &l.roster, &mut l.result, &mut l.map, &mut l.work, &mut l.number)
        });
        let theirs = run(before, |l| {
            let lists: [&mut [u32]; 3] = [&mut l.result, &mut l.map, &mut l.work];
            (self.plain)(mistake, &l.words, &l.table, &l.roster, lists, &mut l.number)
        });
        [ours, theirs]
    }
}

/// The number of triples of the summary.
fn summary_size(summary: &Summary, site: &generate::Site) -> usize {
    let mut count = 0;
    let mut lists = [site.table.len(), site.n, 2 * site.n].map(|length| vec![0; length]);
    let lists = lists.each_mut().map(Vec::as_mut_slice);
    let status = (summary.plain)(Mistake::None, &site.words, &site.table, &site.roster, lists, &mut count);
    triples_of(status, count)
}

/// A work list as another call may have left it: junk, or codes that could be taken for entries of this one.
fn old_work(random: &mut Random, length: usize, n: usize) -> Vec<u32> {
    if n == 0 || random.chance(50) {
        return random.junk(length);
    }
    (0..length).map(|_| random.below(n) as u32).collect()
}

pub fn summarise(random: &mut Random, report: &mut Report, mistake: Mistake, summary: &Summary) {
    let site = site(random);
    let length = result_length(random, summary_size(summary, &site));
    let lengths = [near(random, site.n), near(random, 2 * site.n)];
    let before = Lent {
        words: site.words,
        table: site.table,
        roster: site.roster,
        result: random.junk(length),
        map: random.junk(lengths[0]),
        work: old_work(random, lengths[1], site.n),
        number: random.below(1 << 40),
    };
    compare_summarise(report, mistake, summary, before);
}

pub fn compare_summarise(report: &mut Report, mistake: Mistake, summary: &Summary, before: Lent) {
    let [ours, theirs] = summary.both(mistake, &before);
    report.compare(summary.call, &before, ours, theirs, true);
}

/// Everything lent to look up; `place` is written also where it refuses.
#[derive(Clone, PartialEq, Eq, Debug)]
struct Looked {
    list: Vec<u32>,
    t: [u32; 3],
    found: u32,
    place: usize,
}

/// A list of triples in rising order, the rest behind them as it was.
fn sort(list: &mut [u32]) {
    list.as_chunks_mut::<3>().0.sort_unstable();
}

pub fn look_up(random: &mut Random, report: &mut Report, mistake: Mistake) {
    let mut list = site(random).table;
    if random.chance(20) {
        sort(&mut list);
    }
    if random.chance(20) {
        list.iter_mut().for_each(|x| *x = x.wrapping_mul(0x0100_0001));
    }
    let mut t = [random.next() as u32, random.below(9) as u32, 5 + random.below(20) as u32];
    if random.chance(80) && list.len() >= 3 {
        // Sometimes a run across two triples, which is none.
        let i = if random.chance(60) { 3 * random.below(list.len() / 3) } else { random.below(list.len() - 2) };
        t.copy_from_slice(&list[i..i + 3]);
    }
    compare_look_up(random, report, mistake, list, t);
}

pub fn compare_look_up(random: &mut Random, report: &mut Report, mistake: Mistake, list: Vec<u32>, t: [u32; 3]) {
    let before = Looked { list, t, found: random.next() as u32, place: random.junk_count() };
    let ours = run(&before, |l| proved::look_up(&l.list, t[0], t[1], t[2], &mut l.found, &mut l.place));
    let theirs = run(&before, |l| plain::look_up_with(mistake, &l.list, t, &mut l.found, &mut l.place));
    let yes = theirs.lent.found == 1;
    report.compare(Call::LookUp, &before, ours, theirs, yes);
}
