//! The slots that a weak summary may need, for result lists that are cut at build time.

use crate::{Triple, Words};

/// Whether a code is below N and marked.
fn is_marked(code: u32, roster: &[u8]) -> bool {
    roster.get(code as usize).is_some_and(|&mark| mark != 0)
}

/// How many different marked codes stand at a place of the triples.
fn marked_at(place: usize, triples: &[Triple], roster: &[u8]) -> usize {
    let mut codes: Vec<u32> = triples.iter().map(|t| t[place]).filter(|&code| is_marked(code, roster)).collect();
    codes.sort_unstable();
    codes.dedup();
    codes.len()
}

/// The slots for all triples of one property. They are all different, each with its property first, and at least one.
fn property_slots(words: Words, triples: &[Triple], roster: &[u8]) -> usize {
    let property = triples[0][0];
    if words.0.contains(&property) {
        return triples.len();
    }
    if property as usize >= roster.len() {
        return 0;
    }
    let [subjects, objects] = [1, 2].map(|place| marked_at(place, triples, roster));
    triples.len().min((subjects + 1).saturating_mul(objects + 1))
}

/// How many slots [`summarise`](crate::summarise) may need for a table with a roster: with a result list of three times as many
/// numbers it never refuses with 5, [`Refusal::Slots`](crate::Refusal::Slots).
///
/// For each data property this counts the smaller of its distinct triples and (A + 1) × (B + 1), where A counts its marked subjects
/// in the table and B its marked objects. To these it adds the distinct schema and type triples. Where no data triple has a marked
/// end, the summary has exactly one line for each data property.
///
/// That so many slots are enough is proved (`SummaryBounded`, `PartBounded` in the theory, `NeverFive` and `SlotsSuffice` in the
/// demands). The function itself is ordinary Rust and not proved: tests compare it with a second one, and cut lists to its number.
/// If it gave too low a number, summarise would refuse with 5; a wrong summary cannot come of it.
///
/// - The table must be the one that is summarised. For the summary of a saturation hand in the saturation: the number for the table
///   before it may be too low.
/// - The roster must be the one that it is summarised with. One that marks more may need more slots.
/// - A table without some of its triples has no higher number, though its summary may be longer: a list that is cut for a whole site
///   serves every part of it.
/// - It is not for [`summarise_strong`](crate::summarise_strong), which keeps more nodes apart: for 10 5 20, 11 5 21, 21 6 30 the
///   number is 2, but the strong summary has three lines, 10 5 20, 10 5 21 and 21 6 30.
///
/// Every input has a number. One or two numbers behind the last whole triple are not looked at, a code that is not below N, the
/// roster's length, counts as unmarked, and data with such a property counts nothing.
///
/// A build script does this with its site, and writes the last number into the controller's source:
///
/// ```
/// use weak_summary::{own_roster, saturate, slots_bound, Refusal, Words};
///
/// fn summary_numbers(words: Words, n: usize, table: &[u32]) -> Result<usize, Refusal> {
///     let (mut roster, mut saturation) = (vec![0; n], vec![0; 3 * 10_000]);
///     own_roster(words, table, &mut roster)?;
///     let count = saturate(words, table, &roster, &mut saturation)?;
///     Ok(3 * slots_bound(words, &saturation[..3 * count], &roster))
/// }
///
/// let table = [5, 2, 6, 5, 3, 8, 10, 5, 20, 11, 5, 21, 12, 6, 22];
/// assert_eq!(summary_numbers(Words::default(), 24, &table), Ok(18));
/// ```
pub fn slots_bound(words: Words, table: &[u32], roster: &[u8]) -> usize {
    let mut triples: Vec<Triple> = table.chunks_exact(3).map(|t| [t[1], t[0], t[2]]).collect();
    triples.sort_unstable();
    triples.dedup();
    let groups = triples.chunk_by(|t, u| t[0] == u[0]);
    groups.map(|group| property_slots(words, group, roster)).sum()
}
