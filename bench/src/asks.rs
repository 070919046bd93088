//! Ask, on a table and on its summary.

use crate::inputs::{self, Input, WORDS};
use crate::measure::{heading, measure, series, sizes, Settings, Timing};
use crate::searches;
use weak_summary::calls as proved;
use weak_summary_reference::{self as plain, QUERY_NUMBERS};

/// A table with a map to ask with.
pub struct Asked {
    pub table: Vec<u32>,
    pub map: Vec<u32>,
}

/// The table as it is, sorted, with the codes as they are.
fn as_table(input: &Input) -> Asked {
    Asked { table: inputs::sorted(&input.table), map: (0..input.n as u32).collect() }
}

fn as_summary(input: &Input) -> Asked {
    let mut table = vec![0; input.table.len()];
    let (mut map, mut work) = (vec![0; input.n], vec![0; 2 * input.n]);
    let mut count = 0;
    plain::summarise(&WORDS, &input.table, &input.roster, &mut table, &mut map, &mut work, &mut count);
    table.truncate(3 * count);
    Asked { table, map }
}

/// A flat query of these patterns.
pub fn query(patterns: &[[u32; 5]]) -> Vec<u32> {
    let mut flat = vec![patterns.len() as u32];
    flat.extend(patterns.concat());
    flat.resize(QUERY_NUMBERS, 0);
    flat
}

/// The ends of the pattern are two variables.
pub fn open(s: u32, p: u32, o: u32) -> [u32; 5] {
    [0, s, p, 0, o]
}

pub fn ask(settings: &Settings, asked: &Asked, query: &[u32]) -> Timing {
    let (table, map) = (&asked.table, &asked.map);
    measure(
        settings,
        (&[9, 9], &[9, 9]),
        |l| l[0] = proved::ask(&WORDS, table, map, query, &mut l[1]),
        |l| l[0] = plain::ask(&WORDS, table, map, query, &mut l[1]),
        |a, b| {
            let result = if a[1] == 1 { "maybe" } else { "none" };
            if a == b && a[0] == 0 {
                Ok(result.to_string())
            } else {
                Err(format!("ask {a:?} and {b:?}"))
            }
        },
    )
}

/// Property 5 leads from kind 0 to kind 0 and property 6 from kind 1 to kind 7, so the second query has no match.
fn queries(asked: &Asked) -> [(&'static str, Vec<u32>); 4] {
    let data = asked.table.chunks_exact(3).rfind(|t| t[1] >= inputs::FIRST_FREE).unwrap();
    let (s, p, o) = (data[0], data[1], data[2]);
    [
        ("one pattern of two codes", query(&[[1, s, p, 1, o]])),
        ("two patterns that meet", query(&[open(0, 5, 1), open(1, 5, 2)])),
        ("two patterns that never meet", query(&[open(0, 5, 1), open(1, 6, 2)])),
        ("four patterns, a star", query(&[open(0, 5, 1), open(0, 37, 2), open(0, 69, 3), open(0, 101, 4)])),
    ]
}

/// One property from even nodes to odd ones: no path of two.
fn one_property(amount: usize) -> Asked {
    let mut random = inputs::Random::new();
    let mut table = Vec::new();
    for _ in 0..amount {
        table.extend([6 + 2 * random.below(30_000), 5, 7 + 2 * random.below(30_000)]);
    }
    Asked { table: inputs::sorted(&table), map: (0..inputs::SITE).collect() }
}

pub fn all(settings: &Settings) {
    let note =
        "Size: triples of the data-heavy table. Both engines get the bare list with each call, so the plain one \
                indexes it by property each time. On the summary the list is that of the summary, whatever the table's \
                size.";
    heading("Ask", note);
    for k in 0..4 {
        let name = queries(&as_table(&inputs::data_heavy(1 << 10)))[k].0;
        series(settings, &format!("table: {name}"), &sizes(settings), |t| {
            let asked = as_table(&inputs::data_heavy(t));
            ask(settings, &asked, &queries(&asked)[k].1)
        });
        series(settings, &format!("summary: {name}"), &sizes(settings), |t| {
            let asked = as_summary(&inputs::data_heavy(t));
            ask(settings, &asked, &queries(&asked)[k].1)
        });
    }
    let small: Vec<usize> = (8..=settings.powers.end() - 4).map(|power| 1 << power).collect();
    series(settings, "one property, a path that is nowhere", &small, |t| {
        ask(settings, &one_property(t), &query(&[open(0, 5, 1), open(1, 5, 2)]))
    });
    searches::all(settings);
}
