//! Joins with projection: whether relations over the variables of a query have a row in common. The variables are eliminated one
//! after the other: the relations that hold one are joined, and it is left out of the result.
//!
//! At most eight pairs of variables stand together in a relation, as a query has eight patterns. Then some variable stands
//! together with three others at most, and eliminating it makes no more pairs than it takes away, so a row has four fields at
//! most.

use crate::triples::PackedSet;

/// A node in a row: a code is below 65,536.
const FIELD: usize = 16;

/// Distinct rows of nodes for some variables, a field for each, the last variable's lowest.
pub struct Relation {
    variables: Vec<usize>,
    rows: Vec<u64>,
}

impl Relation {
    /// Rows of two nodes; of one variable the second counts, of none neither.
    pub fn new(variables: Vec<usize>, rows: impl Iterator<Item = [u32; 2]>) -> Relation {
        let mut rows: Vec<u64> = rows.map(|[a, b]| (a as u64) << FIELD | b as u64).collect();
        make_set(&mut rows);
        Relation { variables, rows }
    }

    fn holds(&self, variable: usize) -> bool {
        self.variables.contains(&variable)
    }

    fn is_within(&self, other: &Relation) -> bool {
        self.variables.iter().all(|&v| other.holds(v))
    }

    /// Where a variable's field begins.
    fn shift(&self, variable: usize) -> usize {
        let place = self.variables.iter().position(|&v| v == variable).unwrap();
        FIELD * (self.variables.len() - 1 - place)
    }

    /// The rows with the fields of these variables in this order, sorted.
    fn sorted_by(&self, order: &[usize]) -> Vec<u64> {
        let shifts: Vec<usize> = order.iter().map(|&v| self.shift(v)).collect();
        let arranged = |row: u64| shifts.iter().fold(0, |made, shift| made << FIELD | row >> shift & 0xffff);
        let mut rows: Vec<u64> = match order == self.variables {
            true => self.rows.clone(),
            false => self.rows.iter().map(|&row| arranged(row)).collect(),
        };
        make_set(&mut rows);
        rows
    }

    fn without(&self, variable: usize) -> Relation {
        let mut variables = self.variables.clone();
        variables.retain(|&v| v != variable);
        Relation { rows: self.sorted_by(&variables), variables }
    }
}

fn make_set(rows: &mut Vec<u64>) {
    rows.sort_unstable();
    rows.dedup();
}

/// How many rows from the first on have its key.
fn run(rows: &[u64], key_shift: usize) -> usize {
    rows.iter().take_while(|&&row| row >> key_shift == rows[0] >> key_shift).count()
}

/// Each pair of rows of two sorted lists that have the same key above the rest of their fields.
fn each_pair(mut left: &[u64], mut right: &[u64], rests: [usize; 2], mut pair: impl FnMut(u64, u64)) {
    while !left.is_empty() && !right.is_empty() {
        let (key, other) = (left[0] >> rests[0], right[0] >> rests[1]);
        let (taken, met) = (run(left, rests[0]), run(right, rests[1]));
        if key == other {
            for &a in &left[..taken] {
                right[..met].iter().for_each(|&b| pair(a, b));
            }
        }
        left = &left[if key <= other { taken } else { 0 }..];
        right = &right[if other <= key { met } else { 0 }..];
    }
}

/// The rows over the variables of both that are in both, with a variable left out.
fn join(a: &Relation, b: &Relation, left_out: Option<usize>) -> Relation {
    let (shared, own): (Vec<usize>, Vec<usize>) = a.variables.iter().partition(|&&v| b.holds(v));
    let others: Vec<usize> = b.variables.iter().copied().filter(|&v| !a.holds(v)).collect();
    let [left, right] = [(a, &own), (b, &others)].map(|(r, rest)| r.sorted_by(&[&shared[..], rest].concat()));
    let rests = [FIELD * own.len(), FIELD * others.len()];
    let mut joined = Relation { variables: [shared, own, others].concat(), rows: Vec::new() };
    let kept = |row: u64| row & ((1 << rests[1]) - 1);
    let Some(variable) = left_out else {
        each_pair(&left, &right, rests, |x, y| joined.rows.push(x << rests[1] | kept(y)));
        return joined;
    };
    let shift = joined.shift(variable);
    let low = (1 << shift) - 1;
    let mut rows = PackedSet::default();
    each_pair(&left, &right, rests, |x, y| {
        let row = x << rests[1] | kept(y);
        rows.insert((row >> shift >> FIELD) << shift | row & low);
    });
    joined.variables.retain(|&v| v != variable);
    joined.rows = rows.into_iter().collect();
    joined
}

/// The other variables that stand together with one.
fn neighbours(relations: &[Relation], variable: usize) -> usize {
    let together = |v: usize| v != variable && relations.iter().any(|r| r.holds(variable) && r.holds(v));
    (0..8).filter(|&v| together(v)).count()
}

/// The variable to eliminate next: fewest neighbours, then fewest rows.
fn next_variable(relations: &[Relation]) -> Option<usize> {
    let rank = |&v: &usize| {
        let rows: usize = relations.iter().filter(|r| r.holds(v)).map(|r| r.rows.len()).sum();
        (neighbours(relations, v), rows)
    };
    (0..8).filter(|&v| relations.iter().any(|r| r.holds(v))).min_by_key(rank)
}

/// The relation joined with those that speak of its variables only, which are taken out of the others.
fn narrowed(mut relation: Relation, others: &mut Vec<Relation>) -> Relation {
    while let Some(i) = others.iter().position(|other| other.is_within(&relation)) {
        relation = join(&relation, &others.swap_remove(i), None);
    }
    relation
}

/// Joins the relations that hold a variable, the smallest first, and leaves it out.
fn eliminate(relations: Vec<Relation>, variable: usize) -> Vec<Relation> {
    let (mut with, mut others): (Vec<Relation>, Vec<Relation>) = relations.into_iter().partition(|r| r.holds(variable));
    with.sort_by_key(|r| r.rows.len());
    let mut left = with.into_iter();
    let mut joined = left.next().unwrap();
    let last = left.next_back();
    for relation in left {
        joined = narrowed(join(&joined, &relation, None), &mut others);
    }
    others.push(match last {
        Some(last) => join(&joined, &last, Some(variable)),
        None => joined.without(variable),
    });
    others
}

/// Whether there are nodes for the variables that make a row in each relation.
pub fn has_row(mut relations: Vec<Relation>) -> bool {
    while relations.iter().all(|r| !r.rows.is_empty()) {
        relations.retain(|r| !r.variables.is_empty());
        match next_variable(&relations) {
            Some(variable) => relations = eliminate(relations, variable),
            None => return true,
        }
    }
    false
}
