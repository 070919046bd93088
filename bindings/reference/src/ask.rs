//! Ask: the triples of each pattern's property, then a backtracking join over sorted candidates; where that takes too many
//! tries, joins with projection.

use crate::join::{has_row, Relation};
use crate::triples::PackedMap;
use crate::{checks, Mistake, Words, CODE, LENGTH, MAX_PATTERNS, OK, QUERY, QUERY_NUMBERS, RETIRED, WORDS};

#[derive(Clone, Copy)]
enum End {
    Variable(usize),
    /// The number that must stand there.
    Fixed(u32),
}

struct Pattern {
    subject: End,
    property: u32,
    object: End,
}

/// Candidates of a pattern, sorted by the end that is bound when the pattern is tried.
struct Step {
    subject: End,
    object: End,
    /// Whether the object leads, that is stands first in each pair.
    object_leads: bool,
    pairs: Vec<(u32, u32)>,
}

impl Step {
    /// The end that stands first in each pair, and the other.
    fn ends(&self) -> [End; 2] {
        match self.object_leads {
            true => [self.object, self.subject],
            false => [self.subject, self.object],
        }
    }

    /// The pairs as rows of the variables.
    fn relation(&self) -> Relation {
        let pairs = self.pairs.iter().map(|&(lead, follow)| [lead, follow]);
        match self.ends() {
            [End::Variable(v), End::Variable(w)] if v == w => {
                Relation::new(vec![v], pairs.filter(|[lead, follow]| lead == follow).map(|[lead, _]| [0, lead]))
            }
            [End::Variable(v), End::Variable(w)] => Relation::new(vec![v, w], pairs),
            [End::Variable(v), End::Fixed(_)] => Relation::new(vec![v], pairs.map(|[lead, _]| [0, lead])),
            [End::Fixed(_), End::Variable(w)] => Relation::new(vec![w], pairs.map(|[_, follow]| [0, follow])),
            [End::Fixed(_), End::Fixed(_)] => Relation::new(vec![], pairs.map(|_| [0, 0])),
        }
    }
}

fn end_wrong(kind: u32, value: u32, n: usize) -> bool {
    match kind {
        0 => value > 7,
        1 => value as usize >= n,
        _ => true,
    }
}

fn query_wrong(query: &[u32], n: usize) -> bool {
    let count = query[0] as usize;
    if count == 0 || count > MAX_PATTERNS {
        return true;
    }
    query[1..]
        .chunks_exact(5)
        .take(count)
        .any(|p| end_wrong(p[0], p[1], n) || p[2] as usize >= n || end_wrong(p[3], p[4], n))
}

/// Whether a counted pattern's property is subclass, subproperty, domain or range.
fn query_retired(mistake: Mistake, words: Words, query: &[u32]) -> bool {
    let words = mistake.words(words);
    let retired: &[u32] = match mistake {
        Mistake::TypeRetired => words.codes(),
        Mistake::RetiredAnswered => &[],
        _ => &words.codes()[1..],
    };
    let count = match mistake {
        Mistake::RetiredPastCount => MAX_PATTERNS,
        _ => query[0] as usize,
    };
    query[1..].chunks_exact(5).take(count).any(|p| retired.contains(&p[2]))
}

/// The checks 6 and 12.
fn query_refusal(mistake: Mistake, words: Words, query: &[u32], n: usize) -> u32 {
    let retired = query_retired(mistake, words, query);
    if query_wrong(query, n) && !(retired && mistake == Mistake::RetiredFirst) {
        return QUERY;
    }
    if retired {
        return RETIRED;
    }
    OK
}

fn end_of(kind: u32, value: u32, map: &[u32]) -> End {
    match kind {
        0 => End::Variable(value as usize),
        _ => End::Fixed(map[value as usize]),
    }
}

fn patterns_of(query: &[u32], map: &[u32]) -> Vec<Pattern> {
    let counted = query[1..].chunks_exact(5).take(query[0] as usize);
    counted
        .map(|p| Pattern { subject: end_of(p[0], p[1], map), property: p[2], object: end_of(p[3], p[4], map) })
        .collect()
}

fn is_bound(end: End, bound: &[bool; 8]) -> bool {
    match end {
        End::Variable(v) => bound[v],
        End::Fixed(_) => true,
    }
}

fn admits(end: End, node: u32) -> bool {
    match end {
        End::Variable(_) => true,
        End::Fixed(x) => x == node,
    }
}

/// The pairs of subject and object of each property that the query names: one pass over the table.
fn index(table: &[u32], patterns: &[Pattern]) -> PackedMap<Vec<(u32, u32)>> {
    let mut of: PackedMap<Vec<(u32, u32)>> = PackedMap::default();
    // The last six bits tell most other properties apart.
    let mut some = 0u64;
    for p in patterns {
        of.entry(p.property as u64).or_default();
        some |= 1 << (p.property % 64);
    }
    for t in table.chunks_exact(3).filter(|t| some >> (t[1] % 64) & 1 == 1) {
        if let Some(pairs) = of.get_mut(&(t[1] as u64)) {
            pairs.push((t[0], t[2]));
        }
    }
    of
}

/// The place of the pattern to try next: most ends bound, then fewest triples.
fn next_pattern(left: &[Pattern], bound: &[bool; 8], of: &PackedMap<Vec<(u32, u32)>>) -> usize {
    let rank = |p: &Pattern| {
        let ends = is_bound(p.subject, bound) as u8 + is_bound(p.object, bound) as u8;
        (2 - ends, of[&(p.property as u64)].len())
    };
    (0..left.len()).min_by_key(|&i| rank(&left[i])).unwrap()
}

/// Candidates of a pattern, sorted if an end is bound by then.
fn step_of(p: Pattern, bound: &[bool; 8], of: &PackedMap<Vec<(u32, u32)>>) -> Step {
    let object_leads = !is_bound(p.subject, bound) && is_bound(p.object, bound);
    let candidates = of[&(p.property as u64)].iter();
    let mut pairs: Vec<(u32, u32)> = candidates
        .filter(|&&(s, o)| admits(p.subject, s) && admits(p.object, o))
        .map(|&(s, o)| if object_leads { (o, s) } else { (s, o) })
        .collect();
    if is_bound(p.subject, bound) || object_leads {
        pairs.sort_unstable();
    }
    Step { subject: p.subject, object: p.object, object_leads, pairs }
}

fn plan(table: &[u32], mut left: Vec<Pattern>) -> Vec<Step> {
    let of = index(table, &left);
    let mut bound = [false; 8];
    let mut steps = Vec::new();
    while !left.is_empty() {
        let pattern = left.remove(next_pattern(&left, &bound, &of));
        let step = step_of(pattern, &bound, &of);
        for end in [step.subject, step.object] {
            if let End::Variable(v) = end {
                bound[v] = true;
            }
        }
        steps.push(step);
    }
    steps
}

type Bindings = [Option<u32>; 8];

fn value_of(end: End, bindings: &Bindings) -> Option<u32> {
    match end {
        End::Variable(v) => bindings[v],
        End::Fixed(x) => Some(x),
    }
}

fn bind(end: End, node: u32, bindings: &mut Bindings) -> bool {
    match end {
        End::Variable(v) => *bindings[v].get_or_insert(node) == node,
        End::Fixed(x) => x == node,
    }
}

/// Whether the steps can be put in the table at the bindings; none where the tries are used up.
fn matches(steps: &[Step], bindings: Bindings, tries: &mut usize) -> Option<bool> {
    let Some((step, rest)) = steps.split_first() else {
        return Some(true);
    };
    let [leading, following] = step.ends();
    let candidates = match value_of(leading, &bindings) {
        Some(x) => {
            let from = step.pairs.partition_point(|&(lead, _)| lead < x);
            let to = step.pairs.partition_point(|&(lead, _)| lead <= x);
            &step.pairs[from..to]
        }
        None => &step.pairs[..],
    };
    for &(lead, follow) in candidates {
        *tries = tries.checked_sub(1)?;
        let mut tried = bindings;
        let fits = bind(leading, lead, &mut tried) && bind(following, follow, &mut tried);
        if fits && matches(rest, tried, tries)? {
            return Some(true);
        }
    }
    Some(false)
}

/// The tries of the search: about as long as the joins would take.
fn most_tries(steps: &[Step]) -> usize {
    1_000 + 2 * steps.iter().map(|step| step.pairs.len()).sum::<usize>()
}

/// Whether some choice of nodes puts every pattern in the table.
fn some_choice(mistake: Mistake, table: &[u32], patterns: Vec<Pattern>) -> bool {
    let steps = plan(table, patterns);
    let searched = matches(&steps, [None; 8], &mut most_tries(&steps));
    searched.unwrap_or_else(|| match mistake {
        Mistake::UsedUpNone => false,
        Mistake::UsedUpMaybe => true,
        _ => has_row(steps.iter().map(Step::relation).collect()),
    })
}

pub fn ask(words: &[u32], table: &[u32], map: &[u32], query: &[u32], maybe: &mut u32) -> u32 {
    ask_with(Mistake::None, words, table, map, query, maybe)
}

pub fn ask_with(mistake: Mistake, words: &[u32], table: &[u32], map: &[u32], query: &[u32], maybe: &mut u32) -> u32 {
    let n = map.len();
    let Some(words) = Words::of(words) else {
        return LENGTH;
    };
    if query.len() != QUERY_NUMBERS || checks::size_wrong(n) || checks::table_length_wrong(table.len()) {
        return LENGTH;
    }
    if words.wrong(n) {
        return WORDS;
    }
    if checks::table_wrong(words, table, n) {
        return CODE;
    }
    let refusal = query_refusal(mistake, words, query, n);
    if refusal != OK {
        return refusal;
    }
    *maybe = some_choice(mistake, table, patterns_of(query, map)) as u32;
    OK
}

#[cfg(test)]
mod tests {
    use super::*;

    /// A number below the bound, from a row of them (splitmix64).
    fn below(state: &mut u64, bound: u32) -> u32 {
        *state = state.wrapping_add(0x9e37_79b9_7f4a_7c15);
        let mut z = *state;
        z = (z ^ (z >> 30)).wrapping_mul(0xbf58_476d_1ce4_e5b9);
        z = (z ^ (z >> 27)).wrapping_mul(0x94d0_49bb_1331_11eb);
        ((z ^ (z >> 31)) % bound as u64) as u32
    }

    fn end(state: &mut u64, variables: u32, nodes: u32) -> End {
        match below(state, 12) {
            0 => End::Fixed(below(state, nodes)),
            _ => End::Variable(below(state, variables) as usize),
        }
    }

    /// The search without a limit and the joins, on small tables of two properties.
    #[test]
    fn search_and_joins_agree() {
        let state = &mut 1;
        let mut found = [0; 2];
        for _ in 0..20_000 {
            let (nodes, amount) = (2 + below(state, 8), below(state, 24));
            let triple = |state: &mut u64| [below(state, nodes), below(state, 2), below(state, nodes)];
            let table: Vec<u32> = (0..amount).flat_map(|_| triple(state)).collect();
            let (count, variables) = (1 + below(state, 8), 1 + below(state, 8));
            let pattern = |state: &mut u64| Pattern {
                subject: end(state, variables, nodes),
                property: below(state, 2),
                object: end(state, variables, nodes),
            };
            let steps = plan(&table, (0..count).map(|_| pattern(state)).collect());
            let searched = matches(&steps, [None; 8], &mut usize::MAX.clone()).unwrap();
            assert_eq!(searched, has_row(steps.iter().map(Step::relation).collect()), "{table:?}");
            found[searched as usize] += 1;
        }
        assert!(found.iter().all(|&count| count > 2_000), "{found:?}");
    }
}
