//! Result lists cut to the slots that a summary may need: the number by the plain function of the Rust crate and by the unverified
//! engine, and weak summaries in lists of just so many slots, which are never refused with 5.

use crate::generate::{self, Site};
use crate::random::Random;
use crate::report::{Call, Outcome, Report};
use crate::tables::{Lent, WEAK};
use crate::words::{self, free_code, Words};
use std::collections::BTreeMap;
use weak_summary::slots_bound;
use weak_summary_reference::{self as plain, Bounds, Mistake, PropertyBound};

/// What is counted of an accepted summary.
#[derive(Clone, Copy, Debug)]
pub struct Fit {
    /// A property has fewer triples than its grid has cells.
    pub by_triples: bool,
    /// The other way round.
    pub by_cells: bool,
    /// The same, and the property has marked subjects and marked objects.
    pub by_grid: bool,
    /// The same, and there is a line for each cell.
    pub full_grid: bool,
    /// There are as many lines as slots, and some.
    pub filled: bool,
    /// There are fewer.
    pub spare: bool,
    /// There is data, and none with a marked end.
    pub exact: bool,
    /// The table is the saturation of one with fewer triples.
    pub grown: bool,
    /// Without its last triple the table has a longer summary.
    pub longer_part: bool,
}

/// The number of slots, and all that was lent, afterwards.
#[derive(PartialEq, Eq, Debug)]
struct Numbered {
    slots: usize,
    lent: Lent,
}

fn numbered(slots: usize, outcome: Outcome<Lent>) -> Outcome<Numbered> {
    Outcome { status: outcome.status, lent: Numbered { slots, lent: outcome.lent } }
}

/// A table with its words and its roster, and what bounds its summary.
struct Case<'a> {
    site: &'a Site,
    words: plain::Words,
    bounds: Bounds,
    grown: bool,
    longer_part: bool,
}

impl Case<'_> {
    fn is_marked(&self, code: u32) -> bool {
        self.site.roster[code as usize] != 0
    }

    /// Whether no data triple of an accepted table has a marked end.
    fn is_exact(&self) -> bool {
        let mut data = self.site.table.chunks_exact(3).filter(|t| self.words.is_data(t[1]));
        data.all(|t| !self.is_marked(t[0]) && !self.is_marked(t[2]))
    }

    /// How many lines of the summary each data property has.
    fn data_lines(&self, summary: &[u32]) -> BTreeMap<u32, usize> {
        let mut lines = BTreeMap::new();
        for t in summary.chunks_exact(3).filter(|t| self.words.is_data(t[1])) {
            *lines.entry(t[1]).or_insert(0) += 1;
        }
        lines
    }

    /// What must hold of the summary of an accepted table.
    fn check(&self, report: &mut Report, summary: &[u32]) {
        let lines = self.data_lines(summary);
        let total: usize = lines.values().sum();
        let is_bounded = |(property, count): (&u32, &usize)| {
            self.bounds.properties.get(property).is_some_and(|bound| *count <= bound.lines())
        };
        let each = lines.iter().all(is_bounded);
        report.require(Call::Slots, each, "a property has more lines than its bound", &summary);
        report.require(Call::Slots, total <= self.bounds.data(), "there are more data lines than the bound", &summary);
        let exact = !self.is_exact() || total == self.bounds.properties.len();
        report.require(Call::Slots, exact, "without marked ends there is not one line for each property", &summary);
    }

    fn fit(&self, summary: &[u32]) -> Fit {
        let lines = self.data_lines(summary);
        let any = |is_so: fn(&PropertyBound, usize) -> bool| {
            let of = |property| lines.get(property).copied().unwrap_or(0);
            self.bounds.properties.iter().any(|(property, bound)| is_so(bound, of(property)))
        };
        let (count, slots) = (summary.len() / 3, self.bounds.slots());
        Fit {
            by_triples: any(|bound, _| bound.triples < bound.cells()),
            by_cells: any(|bound, _| bound.cells() < bound.triples),
            by_grid: any(|bound, _| is_grid(bound)),
            full_grid: any(|bound, lines| is_grid(bound) && lines == bound.cells()),
            filled: count == slots && count > 0,
            spare: count < slots,
            exact: !lines.is_empty() && self.is_exact(),
            grown: self.grown,
            longer_part: self.longer_part,
        }
    }
}

/// Whether the cells decide, and there are several rows and several columns.
fn is_grid(bound: &PropertyBound) -> bool {
    bound.rows > 1 && bound.columns > 1 && bound.cells() < bound.triples
}

/// What is lent for a summary with a result list of this length.
fn lent(random: &mut Random, site: &Site, length: usize) -> Lent {
    Lent {
        words: site.words.clone(),
        table: site.table.clone(),
        roster: site.roster.clone(),
        result: random.junk(length),
        map: random.junk(site.n),
        work: random.junk(2 * site.n),
        number: random.junk_count(),
    }
}

/// Whether an accepted table without its last triple has a longer summary than this. A list that is cut for the whole table is enough
/// for it.
fn is_part_longer(report: &mut Report, words: plain::Words, whole: &Lent, slots: usize, count: usize) -> bool {
    let last = whole.table.chunks_exact(3).last();
    let table: Vec<u32> = whole.table.chunks_exact(3).filter(|&t| Some(t) != last).flatten().copied().collect();
    let number = slots_bound(weak_summary::Words(*words.codes()), &table, &whole.roster);
    let part = Lent { table, ..whole.clone() };
    let [ours, _] = WEAK.both(Mistake::None, &part);
    report.require(Call::Slots, number <= slots, "a part has a higher bound than the whole", &part);
    report.require(Call::Slots, ours.status == plain::OK, "a list cut for the whole is refused for a part", &part);
    ours.status == plain::OK && ours.lent.number > count
}

/// Compares the two numbers, and the summaries in a list of so many slots, now and then with a number or two more. Words that are not
/// five are no case.
pub fn compare(random: &mut Random, report: &mut Report, mistake: Mistake, site: &Site, grown: bool) {
    let Some(words) = plain::Words::of(&site.words) else {
        return;
    };
    let bounds = plain::slots_with(mistake, words, &site.table, &site.roster);
    let number = slots_bound(weak_summary::Words(*words.codes()), &site.table, &site.roster);
    let length = 3 * bounds.slots() + random.below(3);
    let before = lent(random, site, length);
    let [ours, theirs] = WEAK.both(mistake, &before);
    let status = ours.status;
    let summary = ours.lent.result.get(..3 * ours.lent.number).unwrap_or_default().to_vec();
    report.compare(Call::Slots, &before, numbered(number, ours), numbered(bounds.slots(), theirs), true);
    report.require(Call::Slots, status != plain::SLOTS, "a list of the bound's slots is refused with 5", &before);
    if status == plain::OK {
        let longer_part = is_part_longer(report, words, &before, bounds.slots(), summary.len() / 3);
        let case = Case { site, words, bounds, grown, longer_part };
        case.check(report, &summary);
        report.fitted(case.fit(&summary));
    }
}

/// How many properties a dense site has.
const PROPERTIES: usize = 2;

/// A table with mostly more triples than its properties have cells: each property takes some of a few nodes as subjects and some as
/// objects. A few triples are types, subproperties, domains and ranges.
fn dense_table(random: &mut Random, words: Words, nodes: usize) -> Vec<u32> {
    let sides = [(); 2 * PROPERTIES].map(|()| {
        let start = random.below(nodes);
        (start, 1 + random.below(nodes - start))
    });
    let end = |random: &mut Random, side: usize| {
        let (start, width) = sides[side];
        free_code(&words, PROPERTIES + start + random.below(width))
    };
    let mut table = Vec::new();
    for _ in 0..8 + random.below(60) {
        let place = random.below(PROPERTIES);
        let property = free_code(&words, place);
        let [subject, object] = [end(random, 2 * place), end(random, 2 * place + 1)];
        table.extend(match random.below(20) {
            0 | 1 => [subject, words[0], object],
            2 => [property, words[2], free_code(&words, random.below(PROPERTIES))],
            3 => [property, random.pick(&words[3..]), object],
            _ => [subject, property, object],
        });
    }
    table
}

/// A dense table with its own roster, and up to three nodes marked besides.
fn dense_site(random: &mut Random) -> Site {
    let nodes = 5 + random.below(5);
    let n = 5 + PROPERTIES + nodes;
    let words = words::right(random, n);
    let table = dense_table(random, words, nodes);
    let mut roster = vec![0; n];
    plain::own_roster(&words, &table, &mut roster);
    for k in 0..random.below(4) {
        roster[free_code(&words, PROPERTIES + k) as usize] |= 1 + random.below(3) as u8;
    }
    Site { n, right_words: words, words: words.to_vec(), table, roster }
}

/// Numbers of every kind in every list, few different ones, so that triples meet: words that are equal or too large, codes beyond the
/// roster, marks over 3, and a table that ends within a triple.
fn any_site(random: &mut Random) -> Site {
    let number = |random: &mut Random| match random.below(12) {
        0 => u32::MAX - random.below(2) as u32,
        _ => random.below(12) as u32,
    };
    let (n, length) = (random.below(12), random.below(90));
    let words = [(); 5].map(|()| number(random));
    let table = (0..length).map(|_| number(random)).collect();
    let roster = (0..n).map(|_| random.pick(&[0, 0, 1, 2, 3, 255])).collect();
    Site { n, right_words: words, words: words.to_vec(), table, roster }
}

/// Slots for the saturation of a random site.
const SATURATED: usize = 3_000;

/// The site with the saturation as its table; none if the table is refused, or if its saturation needs more slots.
fn saturation(site: &Site) -> Option<Site> {
    let (mut table, mut count) = (vec![0; 3 * SATURATED], 0);
    let status = plain::saturate(&site.words, &site.table, &site.roster, &mut table, &mut count);
    table.truncate(3 * count);
    let Site { n, right_words, .. } = *site;
    (status == plain::OK).then(|| Site {
        n,
        right_words,
        words: site.words.clone(),
        table,
        roster: site.roster.clone(),
    })
}

/// A random site, and now and then its saturation too.
pub fn slots(random: &mut Random, report: &mut Report, mistake: Mistake) {
    let site = match random.below(10) {
        0..=4 => generate::site(random),
        5..=8 => dense_site(random),
        _ => any_site(random),
    };
    compare(random, report, mistake, &site, false);
    if let Some(saturated) = random.chance(40).then(|| saturation(&site)).flatten() {
        let grown = saturated.table.len() > site.table.len();
        compare(random, report, mistake, &saturated, grown);
    }
}
