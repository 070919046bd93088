//! The small graphs of the strong summary, with the own roster.

mod common;

use common::{map_with, roster_of, saturation_of, strong_summary_of, summary_of, RDFS, SIX, SIX_NODES, SIX_SUMMARY};
use weak_summary::{summarise_strong, Refusal, ABSENT};

struct Graph {
    n: usize,
    table: &'static [u32],
    summary: &'static [u32],
    /// The nodes and their representatives.
    nodes: &'static [(usize, u32)],
}

impl Graph {
    /// The triples as they stand, and the other way round.
    fn orders(&self) -> [Vec<u32>; 2] {
        let turned: Vec<&[u32]> = self.table.chunks_exact(3).rev().collect();
        [self.table.to_vec(), turned.concat()]
    }
}

const GRAPHS: [Graph; 10] = [
    Graph { n: 5, table: &[], summary: &[], nodes: &[] },
    Graph { n: 11, table: &[10, 5, 10], summary: &[10, 5, 10], nodes: &[(10, 10)] },
    // Each node of a chain is apart.
    Graph {
        n: 13,
        table: &[10, 5, 11, 11, 5, 12],
        summary: &[10, 5, 11, 11, 5, 12],
        nodes: &[(10, 10), (11, 11), (12, 12)],
    },
    // Types only are together.
    Graph {
        n: 12,
        table: &[10, 0, 8, 11, 0, 9],
        summary: &[10, 0, 8, 10, 0, 9],
        nodes: &[(8, 8), (9, 9), (10, 10), (11, 10)],
    },
    Graph {
        n: 13,
        table: &[10, 0, 8, 11, 0, 9, 11, 5, 12],
        summary: &[10, 0, 8, 11, 0, 9, 11, 5, 12],
        nodes: &[(8, 8), (9, 9), (10, 10), (11, 11), (12, 12)],
    },
    Graph {
        n: 24,
        table: &[10, 5, 20, 10, 6, 21, 11, 6, 22, 11, 7, 23],
        summary: &[10, 5, 20, 10, 6, 21, 10, 7, 23],
        nodes: &[(10, 10), (11, 10), (20, 20), (21, 21), (22, 21), (23, 23)],
    },
    // One source clique and three ways to be fed, one of them not at all.
    Graph {
        n: 32,
        table: &[10, 5, 20, 10, 6, 21, 11, 6, 22, 12, 6, 23, 13, 5, 24, 30, 7, 12, 31, 8, 13],
        summary: &[10, 5, 20, 10, 6, 21, 12, 6, 21, 13, 5, 20, 30, 7, 12, 31, 8, 13],
        nodes: &[
            (10, 10),
            (11, 10),
            (12, 12),
            (13, 13),
            (20, 20),
            (21, 21),
            (22, 21),
            (23, 21),
            (24, 20),
            (30, 30),
            (31, 31),
        ],
    },
    // 13 has no source clique, 12 has one.
    Graph {
        n: 15,
        table: &[10, 5, 12, 11, 5, 13, 12, 6, 14],
        summary: &[10, 5, 12, 10, 5, 13, 12, 6, 14],
        nodes: &[(10, 10), (11, 10), (12, 12), (13, 13), (14, 14)],
    },
    // A class links nothing.
    Graph {
        n: 14,
        table: &[8, 5, 12, 8, 6, 13, 10, 0, 8],
        summary: &[8, 5, 12, 8, 6, 13, 10, 0, 8],
        nodes: &[(8, 8), (10, 10), (12, 12), (13, 13)],
    },
    // The smallest code represents, not the first seen.
    Graph {
        n: 14,
        table: &[13, 5, 12, 11, 5, 10],
        summary: &[11, 5, 10],
        nodes: &[(10, 10), (11, 11), (12, 10), (13, 11)],
    },
];

#[test]
fn small_graphs_in_both_orders() {
    for graph in &GRAPHS {
        let expected = (graph.summary.to_vec(), map_with(graph.n, graph.nodes));
        for table in graph.orders() {
            assert_eq!(strong_summary_of(RDFS, &table, graph.n), expected, "{table:?}");
        }
    }
}

#[test]
fn one_slot_too_few() {
    for graph in GRAPHS.iter().filter(|graph| !graph.summary.is_empty()) {
        let roster = roster_of(RDFS, graph.table, graph.n);
        let mut lists = [graph.summary.len() - 1, graph.n, 2 * graph.n].map(|length| vec![9; length]);
        let [result, map, work] = &mut lists;
        assert_eq!(summarise_strong(RDFS, graph.table, &roster, result, map, work), Err(Refusal::Slots));
        assert!(lists.iter().flatten().all(|&x| x == 0));
    }
}

/// What a code becomes by one map and then by another; absent stays absent.
fn through(first: &[u32], second: &[u32]) -> Vec<u32> {
    first.iter().map(|&code| if code == ABSENT { ABSENT } else { second[code as usize] }).collect()
}

#[test]
fn weak_of_strong_is_weak() {
    for graph in &GRAPHS {
        let (strong, to_strong) = strong_summary_of(RDFS, graph.table, graph.n);
        let (weak, to_weak) = summary_of(RDFS, &strong, graph.n);
        assert_eq!((weak, through(&to_strong, &to_weak)), summary_of(RDFS, graph.table, graph.n));
    }
    assert_eq!(summary_of(RDFS, GRAPHS[2].table, 13).0, [10, 5, 10]);
    assert_eq!(summary_of(RDFS, GRAPHS[6].table, 32).0, [10, 5, 20, 10, 6, 21, 30, 7, 10, 31, 8, 10]);
}

#[test]
fn strong_shortcut_of_the_six() {
    let saturation = saturation_of(RDFS, &SIX, 14, 17).unwrap();
    let long_way = strong_summary_of(RDFS, &saturation, 14);
    assert_eq!(long_way, (SIX_SUMMARY.to_vec(), map_with(14, &SIX_NODES)));
    let (plain, first) = strong_summary_of(RDFS, &SIX, 14);
    let (summary, second) = strong_summary_of(RDFS, &saturation_of(RDFS, &plain, 14, 17).unwrap(), 14);
    assert_eq!((summary, through(&first, &second)), long_way);
}

#[test]
fn more_marks_than_needed() {
    let table = [10, 5, 12, 11, 5, 13, 9, 5, 14];
    let mut roster = roster_of(RDFS, &table, 15);
    roster[11] = 1;
    let (mut result, mut map, mut work) = ([9; 9], [9; 15], [9; 30]);
    assert_eq!(summarise_strong(RDFS, &table, &roster, &mut result, &mut map, &mut work), Ok(2));
    assert_eq!(result, [9, 5, 12, 11, 5, 12, 0, 0, 0]);
    assert_eq!(map[9..], [9, 9, 11, 12, 12, 12]);
}
