//! The calls as the C interface has them: slices and numbers lent, a status returned, which is 0 or the number of the refusal.
//! The place of [`look_up`], [`feed`] and [`remove`] is written by every call, and is 0 after a refusal; the other numbers stay as
//! they are then, but for those of [`read`].
//!
//! Each is safe: the engine takes slices of every length and content, and exclusive borrows cannot overlap.

use crate::ffi;

pub fn own_roster(words: &[u32], table: &[u32], roster: &mut [u8]) -> u32 {
    // SAFETY: each pointer comes with the length of its slice.
    unsafe {
        ffi::ws_own_roster(words.as_ptr(), words.len(), table.as_ptr(), table.len(), roster.as_mut_ptr(), roster.len())
    }
}

pub fn saturate(words: &[u32], table: &[u32], roster: &[u8], result: &mut [u32], count: &mut usize) -> u32 {
    // SAFETY: each pointer comes with the length of its slice, or is a reference.
    unsafe {
        ffi::ws_saturate(
            words.as_ptr(),
            words.len(),
            table.as_ptr(),
            table.len(),
            roster.as_ptr(),
            roster.len(),
            result.as_mut_ptr(),
            result.len(),
            count,
        )
    }
}

pub fn cliques(words: &[u32], table: &[u32], roster: &[u8], sources: &mut [u32], targets: &mut [u32]) -> u32 {
    // SAFETY: each pointer comes with the length of its slice.
    unsafe {
        ffi::ws_cliques(
            words.as_ptr(),
            words.len(),
            table.as_ptr(),
            table.len(),
            roster.as_ptr(),
            roster.len(),
            sources.as_mut_ptr(),
            sources.len(),
            targets.as_mut_ptr(),
            targets.len(),
        )
    }
}

pub fn summarise(
    words: &[u32],
    table: &[u32],
    roster: &[u8],
    result: &mut [u32],
    map: &mut [u32],
    work: &mut [u32],
    count: &mut usize,
) -> u32 {
    // SAFETY: each pointer comes with the length of its slice, or is a reference.
    unsafe {
        ffi::ws_summarise(
            words.as_ptr(),
            words.len(),
            table.as_ptr(),
            table.len(),
            roster.as_ptr(),
            roster.len(),
            result.as_mut_ptr(),
            result.len(),
            map.as_mut_ptr(),
            map.len(),
            work.as_mut_ptr(),
            work.len(),
            count,
        )
    }
}

pub fn summarise_strong(
    words: &[u32],
    table: &[u32],
    roster: &[u8],
    result: &mut [u32],
    map: &mut [u32],
    work: &mut [u32],
    count: &mut usize,
) -> u32 {
    // SAFETY: each pointer comes with the length of its slice, or is a reference.
    unsafe {
        ffi::ws_summarise_strong(
            words.as_ptr(),
            words.len(),
            table.as_ptr(),
            table.len(),
            roster.as_ptr(),
            roster.len(),
            result.as_mut_ptr(),
            result.len(),
            map.as_mut_ptr(),
            map.len(),
            work.as_mut_ptr(),
            work.len(),
            count,
        )
    }
}

pub fn look_up(list: &[u32], s: u32, p: u32, o: u32, found: &mut u32, place: &mut usize) -> u32 {
    // SAFETY: each pointer comes with the length of its slice, or is a reference.
    unsafe { ffi::ws_look_up(list.as_ptr(), list.len(), s, p, o, found, place) }
}

pub fn ask(words: &[u32], table: &[u32], map: &[u32], query: &[u32], maybe: &mut u32) -> u32 {
    // SAFETY: each pointer comes with the length of its slice, or is a reference.
    unsafe {
        ffi::ws_ask(
            words.as_ptr(),
            words.len(),
            table.as_ptr(),
            table.len(),
            map.as_ptr(),
            map.len(),
            query.as_ptr(),
            query.len(),
            maybe,
        )
    }
}

/// What an intake keeps: opening, each feed and each removal borrow it.
pub struct State<'a> {
    pub triples: &'a mut [u32],
    pub summary: &'a mut [u32],
    pub weights: &'a mut [u32],
    pub map: &'a mut [u32],
    pub held: &'a mut usize,
    pub summarised: &'a mut usize,
}

pub fn open(words: &[u32], roster: &[u8], state: State) -> u32 {
    // SAFETY: each pointer comes with the length of its slice, or is a reference.
    unsafe {
        ffi::ws_open(
            words.as_ptr(),
            words.len(),
            roster.as_ptr(),
            roster.len(),
            state.triples.as_mut_ptr(),
            state.triples.len(),
            state.summary.as_mut_ptr(),
            state.summary.len(),
            state.weights.as_mut_ptr(),
            state.weights.len(),
            state.map.as_mut_ptr(),
            state.map.len(),
            state.held,
            state.summarised,
        )
    }
}

/// What a feed or a removal borrows besides its triple.
pub struct Lent<'a> {
    pub words: &'a [u32],
    pub roster: &'a [u8],
    pub state: State<'a>,
    pub work: &'a mut [u32],
}

pub fn feed(lent: Lent, t: [u32; 3], is_new: &mut u32, place: &mut usize) -> u32 {
    let Lent { words, roster, state, work } = lent;
    // SAFETY: each pointer comes with the length of its slice, or is a reference.
    unsafe {
        ffi::ws_feed(
            words.as_ptr(),
            words.len(),
            roster.as_ptr(),
            roster.len(),
            state.triples.as_mut_ptr(),
            state.triples.len(),
            state.summary.as_mut_ptr(),
            state.summary.len(),
            state.weights.as_mut_ptr(),
            state.weights.len(),
            state.map.as_mut_ptr(),
            state.map.len(),
            work.as_mut_ptr(),
            work.len(),
            t[0],
            t[1],
            t[2],
            state.held,
            state.summarised,
            is_new,
            place,
        )
    }
}

pub fn remove(lent: Lent, t: [u32; 3], place: &mut usize) -> u32 {
    let Lent { words, roster, state, work } = lent;
    // SAFETY: each pointer comes with the length of its slice, or is a reference.
    unsafe {
        ffi::ws_remove(
            words.as_ptr(),
            words.len(),
            roster.as_ptr(),
            roster.len(),
            state.triples.as_mut_ptr(),
            state.triples.len(),
            state.summary.as_mut_ptr(),
            state.summary.len(),
            state.weights.as_mut_ptr(),
            state.weights.len(),
            state.map.as_mut_ptr(),
            state.map.len(),
            work.as_mut_ptr(),
            work.len(),
            t[0],
            t[1],
            t[2],
            state.held,
            state.summarised,
            place,
        )
    }
}

pub fn write(words: &[u32], n: u32, table: &[u32], out: &mut [u8], count: &mut usize) -> u32 {
    // SAFETY: each pointer comes with the length of its slice, or is a reference.
    unsafe {
        ffi::ws_write(words.as_ptr(), words.len(), n, table.as_ptr(), table.len(), out.as_mut_ptr(), out.len(), count)
    }
}

pub fn read(
    text: &[u8],
    list: &mut [u32],
    queries: &mut [u32],
    words: &mut [u32],
    n: &mut u32,
    count: &mut usize,
    asks: &mut usize,
) -> u32 {
    // SAFETY: each pointer comes with the length of its slice, or is a reference.
    unsafe {
        ffi::ws_read(
            text.as_ptr(),
            text.len(),
            list.as_mut_ptr(),
            list.len(),
            queries.as_mut_ptr(),
            queries.len(),
            words.as_mut_ptr(),
            words.len(),
            n,
            count,
            asks,
        )
    }
}
