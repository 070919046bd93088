//! The checks that several calls share.

use crate::words::{Kind, Words};
use crate::{CLASS, CODE, COVER, MAX_SIZE, MAX_TRIPLES, MIN_SIZE, OK, PROPERTY, ROSTER, WORDS};

pub fn size_wrong(n: usize) -> bool {
    !(MIN_SIZE..=MAX_SIZE).contains(&n)
}

pub fn table_length_wrong(length: usize) -> bool {
    !length.is_multiple_of(3) || length / 3 > MAX_TRIPLES
}

/// The check 1 that all calls with a table and a roster share.
pub fn lengths_wrong(table: &[u32], roster: &[u8]) -> bool {
    size_wrong(roster.len()) || table_length_wrong(table.len())
}

fn roster_wrong(words: Words, roster: &[u8]) -> bool {
    let all = roster.iter().fold(0, |all, mark| all | mark);
    all > 3 || words.codes().iter().any(|&code| roster[code as usize] != 0)
}

/// The checks 10 and 2 of words and a roster.
pub fn roster_refusal(words: Words, roster: &[u8]) -> u32 {
    if words.wrong(roster.len()) {
        return WORDS;
    }
    if roster_wrong(words, roster) {
        return ROSTER;
    }
    OK
}

pub fn triple_wrong(words: Words, t: &[u32], n: usize) -> bool {
    t.iter().any(|&code| code as usize >= n) || words.is_reserved(t[0]) || words.is_reserved(t[2])
}

/// The check 3 of a table.
pub fn table_wrong(words: Words, table: &[u32], n: usize) -> bool {
    table.chunks_exact(3).any(|t| triple_wrong(words, t, n))
}

/// The marks that a triple asks for, as two pairs of a code and its mark.
pub fn roles(words: Words, t: &[u32]) -> [(u32, u8); 2] {
    let (s, p, o) = (t[0], t[1], t[2]);
    match words.kind(p) {
        Kind::Type => [(o, CLASS), (o, CLASS)],
        Kind::Subclass => [(s, CLASS), (o, CLASS)],
        Kind::Subproperty => [(s, PROPERTY), (o, PROPERTY)],
        Kind::Domain | Kind::Range => [(s, PROPERTY), (o, CLASS)],
        Kind::Data => [(p, PROPERTY), (p, PROPERTY)],
    }
}

pub fn covered(words: Words, t: &[u32], roster: &[u8]) -> bool {
    roles(words, t).iter().all(|&(code, mark)| roster[code as usize] & mark != 0)
}

/// The checks 10, 2, 3 and 4 of a table with a roster of a right length.
pub fn table_refusal(words: Words, table: &[u32], roster: &[u8]) -> u32 {
    let refusal = roster_refusal(words, roster);
    if refusal != OK {
        return refusal;
    }
    if table_wrong(words, table, roster.len()) {
        return CODE;
    }
    if !table.chunks_exact(3).all(|t| covered(words, t, roster)) {
        return COVER;
    }
    OK
}
