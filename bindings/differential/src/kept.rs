//! A plain model of how the proved engine takes out a triple, to count which removals take its quick path and what they bring about:
//! the engine cannot be asked. No answer is judged by it.

use crate::intakes::Lent;
use crate::words::Words;
use std::collections::BTreeMap;
use weak_summary_reference::ABSENT;

/// How a triple is taken out.
#[derive(Clone, Copy, PartialEq, Eq, Debug)]
pub enum Path {
    /// The others keep its ends, and its line stands for some of them too.
    Lighter,
    /// The others keep its ends, and its line stands for none of them.
    LineGone,
    /// Summary, weights and map are made anew.
    Anew,
}

/// What the model says of a removal.
#[derive(Clone, Copy, Debug)]
pub struct Removal {
    pub path: Path,
    /// Nodes that had one representative have several.
    pub parts: bool,
    /// Nodes that had several representatives have one: some have types only again.
    pub rejoins: bool,
    /// A node is in no triple any more.
    pub vanishes: bool,
    /// A node is in no triple any more that represented others.
    pub first_vanishes: bool,
    /// No triple is left.
    pub empties: bool,
}

/// Whether the other triples held keep an end of the triple: an unmarked end of a data triple at that side of the same property, any
/// other end at either side.
fn end_kept(words: &Words, before: &Lent, place: usize) -> bool {
    let (t, end) = (before.t, before.t[place]);
    let is_linked = !words.contains(&t[1]) && before.roster[end as usize] == 0;
    before.held().iter().filter(|&&u| u != t).any(|u| match is_linked {
        true => u[1] == t[1] && u[place] == end,
        false => u[0] == end || u[2] == end,
    })
}

/// The weight of the triple's line.
fn weight(before: &Lent) -> u32 {
    let [s, p, o] = before.t;
    let line = [before.map[s as usize], p, before.map[o as usize]];
    let place = before.summary.as_chunks::<3>().0.iter().position(|&u| u == line);
    place.map_or(0, |j| before.weights[j])
}

fn path(words: &Words, before: &Lent) -> Path {
    match end_kept(words, before, 0) && end_kept(words, before, 2) {
        false => Path::Anew,
        true if weight(before) > 1 => Path::Lighter,
        true => Path::LineGone,
    }
}

/// Whether codes with one entry in a map have several in another, those absent in one of them aside.
fn falls_apart(one: &[u32], other: &[u32]) -> bool {
    let mut entries = BTreeMap::new();
    let mut both = one.iter().zip(other).filter(|&(&a, &b)| a != ABSENT && b != ABSENT);
    both.any(|(a, b)| entries.insert(a, b).is_some_and(|earlier| earlier != b))
}

/// What a removal that was accepted did, by what was lent before it and the map after it.
pub fn removal(words: &Words, before: &Lent, map: &[u32]) -> Removal {
    let vanishes = |code: u32| before.map[code as usize] != ABSENT && map[code as usize] == ABSENT;
    let both = before.map.iter().zip(map).filter(|&(&a, &b)| a != ABSENT && b != ABSENT);
    let mut earlier = both.map(|(&representative, _)| representative);
    Removal {
        path: path(words, before),
        parts: falls_apart(&before.map, map),
        rejoins: falls_apart(map, &before.map),
        vanishes: vanishes(before.t[0]) || vanishes(before.t[2]),
        first_vanishes: earlier.any(vanishes),
        empties: before.held == 1,
    }
}

#[cfg(test)]
mod tests {
    use super::*;
    use crate::words::RDFS;
    use weak_summary_reference::{own_roster, Mistake, PlainIntake, State};

    /// What is lent to an intake of 24 codes that holds these triples, and this one for the next call.
    fn holding(table: &[[u32; 3]], t: [u32; 3]) -> Lent {
        let mut roster = vec![0; 24];
        assert_eq!(own_roster(&RDFS, &table.concat(), &mut roster), 0);
        let mut intake = PlainIntake::new(weak_summary_reference::Words::RDFS, &roster, table.len());
        for &t in table {
            assert!(intake.feed(Mistake::None, t, 48).is_ok());
        }
        let [mut triples, mut summary] = [(); 2].map(|()| vec![0; 3 * table.len()]);
        let (mut weights, mut map) = (vec![0; table.len()], vec![0; 24]);
        let [mut held, mut summarised] = [0; 2];
        let state = State {
            triples: &mut triples,
            summary: &mut summary,
            weights: &mut weights,
            map: &mut map,
            held: &mut held,
            summarised: &mut summarised,
        };
        intake.put_state(Mistake::None, state);
        let (words, work) = (RDFS.to_vec(), Vec::new());
        Lent { words, roster, triples, summary, weights, map, work, held, summarised, is_new: 0, place: 0, t }
    }

    /// What the model says of the removal of the triple at a place.
    fn removed(table: &[[u32; 3]], i: usize) -> Removal {
        let before = holding(table, table[i]);
        let others = [&table[..i], &table[i + 1..]].concat();
        removal(&RDFS, &before, &holding(&others, table[i]).map)
    }

    /// Path, parts, rejoins, vanishes, first vanishes, empties.
    type Said = (Path, [bool; 5]);

    fn said(removal: Removal) -> Said {
        let Removal { path, parts, rejoins, vanishes, first_vanishes, empties } = removal;
        (path, [parts, rejoins, vanishes, first_vanishes, empties])
    }

    #[test]
    fn removals_by_hand() {
        let cases: [(&[[u32; 3]], usize, Said); 9] = [
            (&[[5, 8, 7], [7, 8, 9], [9, 8, 10]], 1, (Path::Anew, [true, false, false, false, false])),
            (&[[5, 6, 5], [5, 6, 8]], 0, (Path::Anew, [true, false, false, false, false])),
            (&[[10, 0, 8], [11, 0, 9], [11, 5, 12]], 2, (Path::Anew, [false, true, true, false, false])),
            (&[[10, 5, 20], [11, 5, 21]], 0, (Path::Anew, [false, false, true, true, false])),
            (&[[10, 5, 20], [11, 5, 21]], 1, (Path::Anew, [false, false, true, false, false])),
            (&[[10, 5, 20]], 0, (Path::Anew, [false, false, true, false, true])),
            (&[[10, 5, 20], [10, 5, 21], [11, 5, 20]], 0, (Path::Lighter, [false; 5])),
            (&[[8, 1, 9], [10, 0, 8], [10, 5, 20]], 1, (Path::LineGone, [false; 5])),
            (&[[8, 1, 9], [10, 0, 8], [10, 5, 20], [11, 0, 8], [11, 5, 20]], 3, (Path::Lighter, [false; 5])),
        ];
        for (table, i, expected) in cases {
            assert_eq!(said(removed(table, i)), expected, "{table:?} {i}");
        }
    }
}
