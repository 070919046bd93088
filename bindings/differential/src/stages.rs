//! A plain model of the proved engine's search for a choice of nodes, to count how far queries go: the engine cannot be asked. No
//! answer is judged by it.

use weak_summary_reference::ABSENT;

/// How far the search for a query goes.
#[derive(Clone, Copy, PartialEq, Eq, PartialOrd, Ord, Debug)]
pub enum Stage {
    /// The quick run answers.
    Quick,
    /// The domains answer: some pattern has no triple left.
    Swept,
    /// The search within the domains answers.
    Within,
    /// One variable is fixed.
    FixedOne,
    FixedTwo,
    /// Of queries of eight patterns none was found that fixes three: a query falls into parts where a variable is fixed.
    FixedThree,
}

impl Stage {
    /// The stages that queries are known to reach.
    pub const KNOWN: [Stage; 5] = [Stage::Quick, Stage::Swept, Stage::Within, Stage::FixedOne, Stage::FixedTwo];

    pub fn name(self) -> &'static str {
        match self {
            Stage::Quick => "quick run",
            Stage::Swept => "domains",
            Stage::Within => "search within domains",
            Stage::FixedOne => "one variable fixed",
            Stage::FixedTwo => "two variables fixed",
            Stage::FixedThree => "three variables fixed",
        }
    }
}

/// What the model says of a query.
#[derive(Clone, Copy, Debug)]
pub struct Reach {
    pub furthest: Stage,
    /// Whether a second part was tried.
    pub parts: bool,
    /// Whether a second part was tried where a variable is fixed.
    pub fixed_parts: bool,
    pub maybe: bool,
}

#[derive(Clone, Copy, PartialEq)]
enum End {
    Variable(usize),
    /// The node that a code stands for.
    Node(u32),
}

#[derive(Clone, Copy)]
struct Pattern {
    subject: End,
    property: u32,
    object: End,
}

/// The node of each variable, or absent.
type Bindings = [u32; 8];

/// The nodes that a variable may have: node x has bit x % 4,096.
type Row = [u64; 64];

fn bit(x: u32) -> (usize, u64) {
    (x as usize % 4096 / 64, 1 << (x % 64))
}

fn is_in(row: &Row, x: u32) -> bool {
    let (word, mask) = bit(x);
    row[word] & mask != 0
}

fn put_in(row: &mut Row, x: u32) {
    let (word, mask) = bit(x);
    row[word] |= mask;
}

fn end_of(kind: u32, value: u32, map: &[u32]) -> End {
    match kind {
        0 => End::Variable(value as usize),
        _ => End::Node(map[value as usize]),
    }
}

fn node_of(end: End, bindings: &Bindings) -> Option<u32> {
    match end {
        End::Variable(v) => Some(bindings[v]).filter(|&node| node != ABSENT),
        End::Node(x) => Some(x),
    }
}

/// The variable at an end that has no node.
fn free(end: End, bindings: &Bindings) -> Option<usize> {
    match end {
        End::Variable(v) => Some(v).filter(|&v| bindings[v] == ABSENT),
        End::Node(_) => None,
    }
}

fn bind(end: End, x: u32, bindings: &mut Bindings) -> bool {
    if let Some(v) = free(end, bindings) {
        bindings[v] = x;
    }
    node_of(end, bindings) == Some(x)
}

/// How soon a pattern should be tried, where these variables were met before.
fn score(p: &Pattern, bindings: &Bindings, met: &[bool; 8]) -> usize {
    let ends = [p.subject, p.object].map(|end| free(end, bindings));
    let touches = ends.iter().flatten().any(|&v| met[v]);
    let known = ends.iter().filter(|end| end.is_none_or(|v| met[v])).count();
    4 * touches as usize + known
}

/// Puts the patterns in an order in which each touches a variable of one before it, if any does.
fn arrange(patterns: &mut [Pattern], bindings: &Bindings) {
    let mut met = [false; 8];
    for k in 0..patterns.len() {
        let scores: Vec<usize> = patterns[k..].iter().map(|p| score(p, bindings, &met)).collect();
        let most = *scores.iter().max().unwrap();
        patterns.swap(k, k + scores.iter().position(|&score| score == most).unwrap());
        let ends = [patterns[k].subject, patterns[k].object];
        ends.iter().filter_map(|&end| free(end, bindings)).for_each(|v| met[v] = true);
    }
}

/// Whether two patterns share a variable that has no node.
fn share(p: &Pattern, o: &Pattern, bindings: &Bindings) -> bool {
    let ends = [p.subject, p.object].into_iter().filter(|&end| free(end, bindings).is_some());
    ends.into_iter().any(|end| [o.subject, o.object].contains(&end))
}

/// How many patterns the first part has.
fn part_length(patterns: &[Pattern], bindings: &Bindings) -> usize {
    let apart = |z: usize| !patterns[..z].iter().any(|p| patterns[z..].iter().any(|o| share(p, o, bindings)));
    (1..=patterns.len()).find(|&z| apart(z)).unwrap()
}

/// How many patterns close a cycle of variables without a node, one variable left out: in the part with most, and in all.
fn closings(patterns: &[Pattern], bindings: &Bindings, out: usize) -> (usize, usize) {
    let mut labels = [0, 1, 2, 3, 4, 5, 6, 7];
    let mut closed = [0; 8];
    for p in patterns {
        let [x, y] = [p.subject, p.object].map(|end| free(end, bindings).filter(|&v| v != out));
        let (Some(x), Some(y)) = (x, y) else {
            continue;
        };
        let [from, to] = [labels[x], labels[y]];
        closed[from] += (x != y && from == to) as usize;
        labels.iter_mut().filter(|label| **label == from).for_each(|label| *label = to);
    }
    let part = |to: usize| (0..8).filter(|&v| labels[v] == to).map(|v| closed[v]).sum::<usize>();
    ((0..8).map(part).max().unwrap(), closed.iter().sum())
}

/// The variable without which the part with most cycles has fewest, if there is a cycle.
fn variable_to_fix(patterns: &[Pattern], bindings: &Bindings) -> Option<usize> {
    let left = |v: usize| closings(patterns, bindings, v);
    let best = (0..8).filter(|&v| bindings[v] == ABSENT).min_by_key(|&v| left(v))?;
    Some(best).filter(|&v| left(v) < left(8))
}

struct Model<'a> {
    triples: &'a [[u32; 3]],
    rising: bool,
    /// The site's size.
    n: usize,
    /// The domains; none in the quick run.
    rows: Option<Box<[Row; 8]>>,
    furthest: Stage,
    parts: bool,
    fixed_parts: bool,
}

impl Model<'_> {
    fn reach(&mut self, stage: Stage) {
        self.furthest = self.furthest.max(stage);
    }

    /// The first place from `from` on that may fit, and what it costs to find it.
    fn first_fit(&self, p: &Pattern, bindings: &Bindings, from: usize) -> (usize, usize) {
        let rest = &self.triples[from..];
        let [subject, object] = [p.subject, p.object].map(|end| node_of(end, bindings));
        let Some(x) = subject.filter(|_| self.rising) else {
            let passed = rest.iter().position(|t| t[1] == p.property).unwrap_or(rest.len());
            return (from + passed, passed + 4);
        };
        let passed = rest.partition_point(|&t| t < [x, p.property, object.unwrap_or(0)]);
        let fits = |t: &[u32; 3]| t[..2] == [x, p.property] && object.is_none_or(|y| t[2] == y);
        let found = rest.get(passed).is_some_and(fits);
        (if found { from + passed } else { self.triples.len() }, 8)
    }

    fn allows(&self, end: End, x: u32) -> bool {
        match (&self.rows, end) {
            (Some(rows), End::Variable(v)) => is_in(&rows[v], x),
            _ => true,
        }
    }

    /// Tries the patterns, the first with one triple after the other. With a limit, no steps are left where it gives up.
    fn search(&self, patterns: &[Pattern], bindings: Bindings, steps: &mut Option<usize>) -> bool {
        let Some((p, rest)) = patterns.split_first() else {
            return true;
        };
        let mut from = 0;
        while from < self.triples.len() {
            let (place, cost) = self.first_fit(p, &bindings, from);
            if let Some(left) = steps {
                *left = left.saturating_sub(cost);
                if *left == 0 {
                    return false;
                }
            }
            let Some(&[x, _, y]) = self.triples.get(place) else {
                return false;
            };
            let mut bound = bindings;
            let allowed = self.allows(p.subject, x) && self.allows(p.object, y);
            let fits = allowed && bind(p.subject, x, &mut bound) && bind(p.object, y, &mut bound);
            if fits && self.search(rest, bound, steps) {
                return true;
            }
            from = place + 1;
        }
        false
    }

    /// One pass over the table: the pattern's variables keep the nodes of triples that fit. Whether there is one.
    fn sweep(&self, rows: &mut [Row; 8], p: &Pattern) -> bool {
        let mut marks = [[0; 64]; 2];
        let stands = |end: End, x: u32| match end {
            End::Variable(v) => is_in(&rows[v], x),
            End::Node(node) => node == x,
        };
        let one = p.subject == p.object;
        for t in self.triples.iter().filter(|t| t[1] == p.property && (!one || t[0] == t[2])) {
            if stands(p.subject, t[0]) && stands(p.object, t[2]) {
                put_in(&mut marks[0], t[0]);
                put_in(&mut marks[1], t[2]);
            }
        }
        for (end, row) in [p.subject, p.object].into_iter().zip(marks) {
            if let End::Variable(v) = end {
                rows[v] = row;
            }
        }
        marks[0].iter().any(|&word| word != 0)
    }

    /// The domains of a part at these bindings, if each of its patterns has a triple left.
    fn domains(&self, patterns: &[Pattern], bindings: &Bindings) -> Option<Box<[Row; 8]>> {
        let mut rows = Box::new([[0; 64]; 8]);
        for (row, &node) in rows.iter_mut().zip(bindings) {
            match node {
                ABSENT => *row = [u64::MAX; 64],
                _ => put_in(row, node),
            }
        }
        patterns.iter().rev().all(|p| self.sweep(&mut rows, p)).then_some(rows)
    }

    /// Searches a part, in a good order, at these bindings.
    fn settle(&mut self, patterns: &[Pattern], bindings: Bindings, depth: usize) -> bool {
        let Some(rows) = self.domains(patterns, &bindings) else {
            return false;
        };
        self.reach(Stage::Within);
        let fixed = variable_to_fix(patterns, &bindings).filter(|_| depth < 3);
        let nodes = |v: usize| rows[v].iter().map(|word| word.count_ones() as usize).sum::<usize>();
        let mut steps = fixed.map(|v| 4_096 + patterns.len() * self.triples.len() * (16 + nodes(v) / 4));
        let kept = fixed.map(|v| rows[v]);
        self.rows = Some(rows);
        if self.search(patterns, bindings, &mut steps) {
            return true;
        }
        let (Some(v), Some(kept), Some(0)) = (fixed, kept, steps) else {
            return false;
        };
        (0..self.n as u32).filter(|&x| is_in(&kept, x)).any(|x| {
            let mut more = bindings;
            more[v] = x;
            self.settle_parts(patterns, more, depth + 1)
        })
    }

    /// Searches one part after the other; where a variable is fixed all patterns are swept before.
    fn settle_parts(&mut self, patterns: &[Pattern], bindings: Bindings, depth: usize) -> bool {
        self.reach([Stage::Swept, Stage::FixedOne, Stage::FixedTwo, Stage::FixedThree][depth]);
        if depth > 0 && self.domains(patterns, &bindings).is_none() {
            return false;
        }
        let mut patterns = patterns.to_vec();
        arrange(&mut patterns, &bindings);
        let mut start = 0;
        while start < patterns.len() {
            self.parts |= start > 0;
            self.fixed_parts |= start > 0 && depth > 0;
            let end = start + part_length(&patterns[start..], &bindings);
            if !self.settle(&patterns[start..end], bindings, depth) {
                return false;
            }
            start = end;
        }
        true
    }

    /// The quick run, and where its steps are used up the parts.
    fn run(&mut self, patterns: Vec<Pattern>) -> Reach {
        let mut steps = (patterns.len() > 1).then_some(2_048 + 2 * patterns.len() * self.triples.len());
        let mut maybe = self.search(&patterns, [ABSENT; 8], &mut steps);
        if steps == Some(0) {
            maybe = self.settle_parts(&patterns, [ABSENT; 8], 0);
        }
        Reach { furthest: self.furthest, parts: self.parts, fixed_parts: self.fixed_parts, maybe }
    }
}

/// How far an accepted query goes.
pub fn reach(table: &[u32], map: &[u32], query: &[u32]) -> Reach {
    let triples: Vec<[u32; 3]> = table.chunks_exact(3).map(|t| [t[0], t[1], t[2]]).collect();
    let rising = query[0] > 1 && triples.windows(2).all(|two| two[0] < two[1]);
    let counted = query[1..].chunks_exact(5).take(query[0] as usize);
    let patterns = counted
        .map(|p| Pattern { subject: end_of(p[0], p[1], map), property: p[2], object: end_of(p[3], p[4], map) })
        .collect();
    let n = map.len();
    Model { triples: &triples, rising, n, rows: None, furthest: Stage::Quick, parts: false, fixed_parts: false }
        .run(patterns)
}

#[cfg(test)]
mod tests {
    use super::*;
    use crate::hard::{hard, Hard};
    use crate::random::Random;
    use weak_summary_reference as plain;

    /// The model counts for nothing unless it answers as the engines do.
    #[test]
    fn model_answers_as_the_plain_engine() {
        let random = &mut Random::new(3);
        for _ in 0..10_000 {
            let Hard { words, table, map, query } = hard(random);
            let mut maybe = 9;
            assert_eq!(plain::ask(&words, &table, &map, &query, &mut maybe), 0);
            assert_eq!(reach(&table, &map, &query).maybe as u32, maybe, "{table:?} {query:?}");
        }
    }
}
