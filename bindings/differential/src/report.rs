//! Cases counted by call and outcome, and the differences found.

use crate::kept::{Path, Removal};
use crate::slots::Fit;
use crate::stages::{Reach, Stage};
use std::collections::{BTreeMap, BTreeSet};
use std::fmt::Debug;

#[derive(Clone, Copy, PartialEq, Eq, PartialOrd, Ord, Debug)]
pub enum Call {
    OwnRoster,
    Saturate,
    Cliques,
    Summarise,
    SummariseStrong,
    /// The number of slots, and a summary in a list of so many.
    Slots,
    /// A chain of four calls, counted as one.
    Rework,
    ReworkStrong,
    LookUp,
    Ask,
    Open,
    Feed,
    FeedAltered,
    Remove,
    RemoveAltered,
    Read,
    Write,
}

impl Call {
    fn name(self) -> &'static str {
        match self {
            Call::OwnRoster => "own roster",
            Call::Saturate => "saturate",
            Call::Cliques => "cliques",
            Call::Summarise => "summarise",
            Call::SummariseStrong => "summarise strongly",
            Call::Slots => "slots",
            Call::Rework => "rework",
            Call::ReworkStrong => "rework strongly",
            Call::LookUp => "look up",
            Call::Ask => "ask",
            Call::Open => "open",
            Call::Feed => "feed",
            Call::FeedAltered => "feed, altered state",
            Call::Remove => "remove",
            Call::RemoveAltered => "remove, altered state",
            Call::Read => "read",
            Call::Write => "write",
        }
    }

    /// What the answer 1 and the answer 0 of an accepted call are called.
    fn answers(self) -> Option<[&'static str; 2]> {
        match self {
            Call::LookUp => Some(["found", "not found"]),
            Call::Ask => Some(["maybe", "none"]),
            Call::Feed | Call::FeedAltered => Some(["new", "not new"]),
            _ => None,
        }
    }
}

/// What an engine did with a case: its answer and everything that was lent, afterwards.
#[derive(Clone, PartialEq, Eq, Debug)]
pub struct Outcome<L> {
    pub status: u32,
    pub lent: L,
}

pub struct Report {
    counts: BTreeMap<Call, [usize; NO + 1]>,
    /// The calls in which there was a difference.
    different: BTreeSet<Call>,
    /// The answers maybe and none to the accepted queries that went as far as each stage, and to those with a second part.
    stages: BTreeMap<Stage, [usize; 2]>,
    second_parts: [usize; 2],
    fixed_parts: [usize; 2],
    /// How many accepted removals were of each of these kinds.
    removals: [usize; REMOVALS.len()],
    /// How many accepted summaries in lists cut to the bound were of each of these kinds.
    fits: [usize; FITS.len()],
    pub cases: usize,
    pub differences: usize,
    shown: usize,
}

/// A name, and whether a case is counted under it.
type Counted<C> = (&'static str, fn(C) -> bool);

/// What is counted of accepted removals: which way the proved engine takes, and what then happens.
const REMOVALS: [Counted<Removal>; 8] = [
    ("ends kept by others, the line stays", |removal| removal.path == Path::Lighter),
    ("ends kept by others, the line goes", |removal| removal.path == Path::LineGone),
    ("made anew", |removal| removal.path == Path::Anew),
    ("a class falls apart", |removal| removal.parts),
    ("a node comes back to those with types only", |removal| removal.rejoins),
    ("a node vanishes", |removal| removal.vanishes),
    ("the smallest node of a class vanishes", |removal| removal.first_vanishes),
    ("the last triple of all", |removal| removal.empties),
];

/// What is counted of accepted summaries in lists cut to the bound: what decides it for some property, and how much is needed of it.
const FITS: [Counted<Fit>; 9] = [
    ("a property with fewer triples than cells", |fit| fit.by_triples),
    ("a property with fewer cells than triples", |fit| fit.by_cells),
    ("the same, with marked subjects and marked objects", |fit| fit.by_grid),
    ("the same, and a line for each cell", |fit| fit.full_grid),
    ("every slot is needed", |fit| fit.filled),
    ("slots are left", |fit| fit.spare),
    ("data, and none with a marked end", |fit| fit.exact),
    ("a saturation with more triples than its table", |fit| fit.grown),
    ("without its last triple the summary is longer", |fit| fit.longer_part),
];

/// The numbers of the refusals; 11 is free.
const REFUSALS: [usize; 11] = [1, 2, 3, 4, 5, 6, 7, 8, 9, 10, 12];

/// Where accepted calls with the answer 0 are counted; the others are counted at their status.
const NO: usize = 13;

const CUT: usize = 2_000;

fn cut(text: String) -> String {
    match text.char_indices().nth(CUT) {
        Some((end, _)) => format!("{} ... ({} bytes)", &text[..end], text.len()),
        None => text,
    }
}

/// Counts a case under each name that it has.
fn count<C: Copy>(counts: &mut [usize], kinds: &[Counted<C>], case: C) {
    for (count, (_, is_so)) in counts.iter_mut().zip(kinds) {
        *count += is_so(case) as usize;
    }
}

/// The counts with their names.
fn named<'a, C>(counts: &'a [usize], kinds: &'a [Counted<C>]) -> impl Iterator<Item = (&'static str, usize)> + 'a {
    kinds.iter().zip(counts).map(|(&(name, _), &count)| (name, count))
}

impl Report {
    /// A report that prints this many differences.
    pub fn new(shown: usize) -> Report {
        Report {
            counts: BTreeMap::new(),
            different: BTreeSet::new(),
            stages: BTreeMap::new(),
            second_parts: [0; 2],
            fixed_parts: [0; 2],
            removals: [0; REMOVALS.len()],
            fits: [0; FITS.len()],
            cases: 0,
            differences: 0,
            shown,
        }
    }

    /// Counts a case and compares the outcomes. `yes` is the answer of an accepted call that has one.
    pub fn compare<L: PartialEq + Debug>(
        &mut self,
        call: Call,
        before: &impl Debug,
        proved: Outcome<L>,
        plain: Outcome<L>,
        yes: bool,
    ) {
        self.cases += 1;
        let column = if plain.status == 0 && !yes { NO } else { plain.status as usize };
        self.counts.entry(call).or_default()[column] += 1;
        if proved == plain {
            return;
        }
        self.differences += 1;
        self.different.insert(call);
        if self.differences <= self.shown {
            println!("DIFFERENCE in {}, case {}", call.name(), self.cases);
            println!("  lent:         {}", cut(format!("{before:?}")));
            println!("  proved engine: {}", cut(format!("{proved:?}")));
            println!("  plain engine:  {}", cut(format!("{plain:?}")));
        }
    }

    /// Counts a difference where something does not hold that must after a call.
    pub fn require(&mut self, call: Call, holds: bool, what: &str, left: &impl Debug) {
        if holds {
            return;
        }
        self.differences += 1;
        self.different.insert(call);
        if self.differences <= self.shown {
            println!("DIFFERENCE in {}, case {}: {what}", call.name(), self.cases);
            println!("  proved engine: {}", cut(format!("{left:?}")));
        }
    }

    /// Counts how far an accepted query went.
    pub fn reached(&mut self, reach: Reach) {
        let answer = !reach.maybe as usize;
        self.stages.entry(reach.furthest).or_default()[answer] += 1;
        self.second_parts[answer] += reach.parts as usize;
        self.fixed_parts[answer] += reach.fixed_parts as usize;
    }

    /// Counts an accepted removal.
    pub fn removed(&mut self, removal: Removal) {
        count(&mut self.removals, &REMOVALS, removal);
    }

    /// Counts an accepted summary in a list cut to the bound.
    pub fn fitted(&mut self, fit: Fit) {
        count(&mut self.fits, &FITS, fit);
    }

    /// How many accepted removals were of each kind.
    fn removal_lines(&self) -> impl Iterator<Item = (&'static str, usize)> + '_ {
        named(&self.removals, &REMOVALS)
    }

    /// How many accepted summaries in lists cut to the bound were of each kind.
    fn fit_lines(&self) -> impl Iterator<Item = (&'static str, usize)> + '_ {
        named(&self.fits, &FITS)
    }

    /// How many queries went as far as each stage, and how many had a second part tried, by answer.
    fn lines(&self) -> Vec<(&'static str, [usize; 2])> {
        let count = |stage: Stage| self.stages.get(&stage).copied().unwrap_or_default();
        let mut lines = Stage::KNOWN.map(|stage| (stage.name(), count(stage))).to_vec();
        lines.extend(self.stages.get(&Stage::FixedThree).map(|&by| (Stage::FixedThree.name(), by)));
        lines.push(("a second part", self.second_parts));
        lines.push(("a second part, a variable fixed", self.fixed_parts));
        lines
    }

    /// Whether there is no difference, every stage was reached, and there were removals and cut lists of every kind.
    pub fn passed(&self) -> bool {
        self.differences == 0 && self.unreached().is_empty()
    }

    /// What no query reached, and of what kind no removal and no cut list was.
    pub fn unreached(&self) -> Vec<&'static str> {
        let stages = self.lines().into_iter().filter(|(_, by)| by == &[0; 2]).map(|(name, _)| name);
        let kinds = self.removal_lines().chain(self.fit_lines());
        stages.chain(kinds.filter(|&(_, count)| count == 0).map(|(name, _)| name)).collect()
    }

    pub fn print(&self) {
        println!("| call | cases | accepted | {} |", REFUSALS.map(|r| r.to_string()).join(" | "));
        println!("|---|---|---|{}", "---|".repeat(REFUSALS.len()));
        for (call, by) in &self.counts {
            let total: usize = by.iter().sum();
            let accepted = match call.answers() {
                Some([one, zero]) => format!("{one} {}, {zero} {}", by[0], by[NO]),
                None => format!("{}", by[0] + by[NO]),
            };
            let refused = REFUSALS.map(|r| by[r].to_string()).join(" | ");
            println!("| {} | {total} | {accepted} | {refused} |", call.name());
        }
        println!("\n| ask went as far as | maybe | none |\n|---|---|---|");
        for (name, [maybe, none]) in self.lines() {
            println!("| {name} | {maybe} | {none} |");
        }
        println!("\n| removed | cases |\n|---|---|");
        for (name, count) in self.removal_lines() {
            println!("| {name} | {count} |");
        }
        println!("\n| summarised in a list cut to the bound | cases |\n|---|---|");
        for (name, count) in self.fit_lines() {
            println!("| {name} | {count} |");
        }
        println!("\n{} cases, {} differences{}", self.cases, self.differences, self.missing());
    }

    /// What is left to say of what was not reached.
    fn missing(&self) -> String {
        let unreached = self.unreached();
        match unreached.is_empty() {
            true => String::new(),
            false => format!(", reached by no case: {}", unreached.join(", ")),
        }
    }

    /// Whether the engines differ in a call.
    pub fn differs(&self, call: Call) -> bool {
        self.different.contains(&call)
    }

    /// Whether a call has a case of this status.
    pub fn has(&self, call: Call, status: usize) -> bool {
        self.counts.get(&call).is_some_and(|by| by[status] > 0)
    }
}

#[cfg(test)]
mod tests {
    use super::*;

    /// A report of a run in which every stage was reached, with so many removals and cut lists of each kind.
    fn report_with(removals: usize, fits: usize) -> Report {
        let mut report = Report::new(0);
        report.stages = Stage::KNOWN.map(|stage| (stage, [1; 2])).into();
        (report.second_parts, report.fixed_parts) = ([1; 2], [1; 2]);
        (report.removals, report.fits) = ([removals; REMOVALS.len()], [fits; FITS.len()]);
        report
    }

    /// Without one of the kinds of removals a run does not pass.
    #[test]
    fn each_kind_of_removal_is_asked_for() {
        let mut report = report_with(0, 1);
        assert_eq!(report.unreached(), REMOVALS.map(|(name, _)| name));
        let all = Removal {
            path: Path::Anew,
            parts: true,
            rejoins: true,
            vanishes: true,
            first_vanishes: true,
            empties: true,
        };
        report.removed(Removal { path: Path::Lighter, ..all });
        report.removed(Removal { path: Path::LineGone, ..all });
        assert_eq!(report.unreached(), ["made anew"]);
        assert!(!report.passed());
        report.removed(all);
        assert!(report.passed());
        assert_eq!(report.removals, [1, 1, 1, 3, 3, 3, 3, 3]);
    }

    /// Without one of the kinds of cut lists a run does not pass.
    #[test]
    fn each_kind_of_cut_list_is_asked_for() {
        let mut report = report_with(1, 0);
        assert_eq!(report.unreached(), FITS.map(|(name, _)| name));
        let all = Fit {
            by_triples: true,
            by_cells: true,
            by_grid: true,
            full_grid: true,
            filled: true,
            spare: true,
            exact: true,
            grown: true,
            longer_part: true,
        };
        report.fitted(Fit { full_grid: false, ..all });
        assert_eq!(report.unreached(), ["the same, and a line for each cell"]);
        assert!(!report.passed());
        report.fitted(all);
        assert!(report.passed());
        assert_eq!(report.fits, [2, 2, 2, 1, 2, 2, 2, 2, 2]);
    }
}
