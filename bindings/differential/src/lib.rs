//! Compares the proved engine with the unverified one, call by call over the C interface: the answer, the numbers and every lent
//! list after each call, on valid and damaged input, with junk in lists and numbers before; summaries worked again, with what they
//! must leave; and summaries in lists cut to the number of slots that they may need.

mod asks;
mod chains;
mod generate;
mod hard;
mod intakes;
mod kept;
mod long;
mod random;
mod report;
mod rest;
mod rosters;
mod shapes;
mod slots;
mod stages;
mod tables;
mod texts;
mod words;

pub use report::{Call, Report};
pub use stages::Stage;
pub use weak_summary_reference::Mistake;

use intakes::Kind;
use random::Random;

pub struct Options {
    pub seed: u64,
    /// How many cases at least.
    pub cases: usize,
    /// Whether the long cases and the rosters with one value run too.
    pub long: bool,
    /// A mistake for the unverified engine to make.
    pub mistake: Mistake,
    /// How many differences are printed.
    pub shown: usize,
}

/// For one small chain of each kind: cases of each call, and reworks, openings and calls on altered intakes.
const CALLS: usize = 16;
const REWORKS: usize = 3;

/// Small chains for one over a site of a few hundred triples.
const CHAINS: usize = 16;

/// Random cases of each call and of slots, both summaries reworked, and chains of feeds and of feeds and removals.
fn turn(random: &mut Random, report: &mut Report, mistake: Mistake) {
    for _ in 0..CALLS {
        tables::own_roster(random, report);
        tables::saturate(random, report, mistake);
        tables::cliques(random, report, mistake);
        tables::summarise(random, report, mistake, &tables::WEAK);
        tables::summarise(random, report, mistake, &tables::STRONG);
        tables::look_up(random, report, mistake);
        asks::ask(random, report, mistake);
        asks::hard(random, report, mistake);
        texts::read(random, report);
        texts::write(random, report);
        slots::slots(random, report, mistake);
    }
    for _ in 0..REWORKS {
        rest::rework(random, report, mistake, &tables::WEAK);
        rest::rework(random, report, mistake, &tables::STRONG);
        intakes::open(random, report, mistake);
        intakes::altered(random, report, Kind::Feed);
        intakes::altered(random, report, Kind::Remove);
    }
    chains::feeds(random, report, mistake);
    chains::mixes(random, report, mistake);
    if random.below(CHAINS) == 0 {
        chains::kinds(random, report, mistake);
    }
}

pub fn run(options: &Options) -> Report {
    let mut random = Random::new(options.seed);
    let mut report = Report::new(options.shown);
    while report.cases < options.cases {
        turn(&mut random, &mut report, options.mistake);
    }
    if options.long {
        long::all(&mut random, &mut report, options.mistake);
        rosters::all(&mut random, &mut report);
    }
    report
}
