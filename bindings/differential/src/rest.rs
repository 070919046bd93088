//! Reworking at boot: the summary of a saturated table, saturated and summarised again with the same roster, stays as it is.

use crate::generate::{self, Site};
use crate::random::Random;
use crate::report::{Outcome, Report};
use crate::tables::Summary;
use weak_summary::calls as proved;
use weak_summary_reference::{self as plain, Mistake, ABSENT};

/// A summary with its map, and what saturating it and summarising that leave.
#[derive(PartialEq, Eq, Debug, Default)]
struct Reworked {
    summary: Vec<u32>,
    map: Vec<u32>,
    saturated: Vec<u32>,
    again: Vec<u32>,
    second: Vec<u32>,
}

/// What no call answers: the rest of a result list, or a work list, is not zero, or a count is beyond the list.
const WRONG_LIST: u32 = u32::MAX;

fn zero(list: &[u32]) -> Result<(), u32> {
    if list.iter().any(|&x| x != 0) {
        return Err(WRONG_LIST);
    }
    Ok(())
}

/// The triples of a result list, if the call was accepted.
fn cut(status: u32, mut list: Vec<u32>, count: usize) -> Result<Vec<u32>, u32> {
    if status != 0 {
        return Err(status);
    }
    zero(list.get(3 * count..).ok_or(WRONG_LIST)?)?;
    list.truncate(3 * count);
    Ok(list)
}

fn saturate(random: &mut Random, site: &Site, table: &[u32], slots: usize) -> Result<Vec<u32>, u32> {
    let (mut result, mut count) = (random.junk(3 * slots), 0);
    let status = proved::saturate(&site.words, table, &site.roster, &mut result, &mut count);
    cut(status, result, count)
}

fn summarise(random: &mut Random, summary: &Summary, site: &Site, table: &[u32]) -> Result<[Vec<u32>; 2], u32> {
    let mut lists = [table.len(), site.n, 2 * site.n].map(|length| random.junk(length));
    let mut count = 0;
    let [result, map, work] = &mut lists;
    let status = (summary.proved)(&site.words, table, &site.roster, result, map, work, &mut count);
    let [result, map, work] = lists;
    let triples = cut(status, result, count)?;
    zero(&work)?;
    Ok([triples, map])
}

/// The proved engine: summarises a table, then saturates and summarises the summary with lists just long enough.
fn ship(random: &mut Random, summary: &Summary, site: &Site, table: &[u32]) -> Result<Reworked, u32> {
    let [shipped, map] = summarise(random, summary, site, table)?;
    let saturated = saturate(random, site, &shipped, shipped.len() / 3)?;
    let [again, second] = summarise(random, summary, site, &saturated)?;
    Ok(Reworked { summary: shipped, map, saturated, again, second })
}

fn saturate_and_ship(random: &mut Random, summary: &Summary, site: &Site, slots: usize) -> Result<Reworked, u32> {
    let table = saturate(random, site, &site.table, slots)?;
    ship(random, summary, site, &table)
}

/// The nodes of a summary, each its own representative.
fn own_nodes(n: usize, summary: &[u32]) -> Vec<u32> {
    let mut map = vec![ABSENT; n];
    for t in summary.chunks_exact(3) {
        map[t[0] as usize] = t[0];
        map[t[2] as usize] = t[2];
    }
    map
}

/// The unverified engine's summary of the saturation, and what reworking it should leave.
fn expected(mistake: Mistake, summary: &Summary, site: &Site, slots: usize) -> Result<Reworked, u32> {
    let (mut table, mut count) = (vec![0; 3 * slots], 0);
    let status = plain::saturate_with(mistake, &site.words, &site.table, &site.roster, &mut table, &mut count);
    let table = cut(status, table, count)?;
    let mut lists = [table.len(), site.n, 2 * site.n].map(|length| vec![0; length]);
    let borrowed = lists.each_mut().map(Vec::as_mut_slice);
    let status = (summary.plain)(mistake, &site.words, &table, &site.roster, borrowed, &mut count);
    let [result, map, _] = lists;
    let shipped = cut(status, result, count)?;
    let second = own_nodes(site.n, &shipped);
    Ok(Reworked { summary: shipped.clone(), map, saturated: shipped.clone(), again: shipped, second })
}

fn outcome(result: Result<Reworked, u32>) -> Outcome<Reworked> {
    match result {
        Ok(lent) => Outcome { status: 0, lent },
        Err(status) => Outcome { status, lent: Reworked::default() },
    }
}

/// Compares the reworks of a site, and says whether its saturation fits in the slots and was accepted: only then is it a case.
pub fn compare(
    random: &mut Random,
    report: &mut Report,
    mistake: Mistake,
    summary: &Summary,
    site: &Site,
    slots: usize,
) -> bool {
    let theirs = outcome(expected(mistake, summary, site, slots));
    assert_ne!(theirs.status, WRONG_LIST);
    if theirs.status != 0 {
        return false;
    }
    let ours = outcome(saturate_and_ship(random, summary, site, slots));
    report.compare(summary.rework, site, ours, theirs, true);
    true
}

/// Slots for the saturation of a random site; one that needs more is no case.
const SLOTS: usize = 3_000;

pub fn rework(random: &mut Random, report: &mut Report, mistake: Mistake, summary: &Summary) {
    let site = generate::site(random);
    compare(random, report, mistake, summary, &site, SLOTS);
}

#[cfg(test)]
mod tests {
    use super::*;
    use crate::tables::{STRONG, WEAK};
    use crate::words::RDFS;

    /// A site of 14 codes with this table and its own roster.
    fn site(table: &[u32]) -> Site {
        let mut roster = vec![0; 14];
        plain::own_roster(&RDFS, table, &mut roster);
        Site { n: 14, right_words: RDFS, words: RDFS.to_vec(), table: table.to_vec(), roster }
    }

    /// Without the saturation first the summary is not at rest: it has no slot for what the rules add.
    #[test]
    fn table_that_is_not_saturated() {
        let site = site(&[5, 3, 8, 10, 5, 12, 11, 5, 13]);
        for summary in [WEAK, STRONG] {
            let random = &mut Random::new(1);
            assert_eq!(ship(random, &summary, &site, &site.table), Err(5));
            let worked = saturate_and_ship(random, &summary, &site, 5).unwrap();
            assert_eq!(worked.again, [5, 3, 8, 10, 0, 8, 10, 5, 12]);
            assert_eq!(worked, expected(Mistake::None, &summary, &site, 5).unwrap());
        }
    }
}
