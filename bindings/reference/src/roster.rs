//! The smallest roster that covers a table.

use crate::{checks, Words, CODE, LENGTH, OK, WORDS};

pub fn own_roster(words: &[u32], table: &[u32], roster: &mut [u8]) -> u32 {
    let Some(words) = Words::of(words) else {
        return LENGTH;
    };
    if checks::lengths_wrong(table, roster) {
        return LENGTH;
    }
    if words.wrong(roster.len()) {
        return WORDS;
    }
    if checks::table_wrong(words, table, roster.len()) {
        return CODE;
    }
    roster.fill(0);
    for t in table.chunks_exact(3) {
        for (code, mark) in checks::roles(words, t) {
            roster[code as usize] |= mark;
        }
    }
    OK
}
