//! The C interface, as `include/weak_summary.h` declares it.

extern "C" {
    pub fn ws_own_roster(
        words: *const u32,
        words_length: usize,
        table: *const u32,
        table_length: usize,
        roster: *mut u8,
        roster_length: usize,
    ) -> u32;

    pub fn ws_saturate(
        words: *const u32,
        words_length: usize,
        table: *const u32,
        table_length: usize,
        roster: *const u8,
        roster_length: usize,
        result: *mut u32,
        result_length: usize,
        count: *mut usize,
    ) -> u32;

    pub fn ws_cliques(
        words: *const u32,
        words_length: usize,
        table: *const u32,
        table_length: usize,
        roster: *const u8,
        roster_length: usize,
        sources: *mut u32,
        sources_length: usize,
        targets: *mut u32,
        targets_length: usize,
    ) -> u32;

    pub fn ws_summarise(
        words: *const u32,
        words_length: usize,
        table: *const u32,
        table_length: usize,
        roster: *const u8,
        roster_length: usize,
        result: *mut u32,
        result_length: usize,
        map: *mut u32,
        map_length: usize,
        work: *mut u32,
        work_length: usize,
        count: *mut usize,
    ) -> u32;

    pub fn ws_summarise_strong(
        words: *const u32,
        words_length: usize,
        table: *const u32,
        table_length: usize,
        roster: *const u8,
        roster_length: usize,
        result: *mut u32,
        result_length: usize,
        map: *mut u32,
        map_length: usize,
        work: *mut u32,
        work_length: usize,
        count: *mut usize,
    ) -> u32;

    pub fn ws_look_up(
        list: *const u32,
        list_length: usize,
        subject: u32,
        property: u32,
        object: u32,
        found: *mut u32,
        place: *mut usize,
    ) -> u32;

    pub fn ws_ask(
        words: *const u32,
        words_length: usize,
        table: *const u32,
        table_length: usize,
        map: *const u32,
        map_length: usize,
        query: *const u32,
        query_length: usize,
        maybe: *mut u32,
    ) -> u32;

    pub fn ws_open(
        words: *const u32,
        words_length: usize,
        roster: *const u8,
        roster_length: usize,
        triples: *mut u32,
        triples_length: usize,
        summary: *mut u32,
        summary_length: usize,
        weights: *mut u32,
        weights_length: usize,
        map: *mut u32,
        map_length: usize,
        held: *mut usize,
        summarised: *mut usize,
    ) -> u32;

    pub fn ws_feed(
        words: *const u32,
        words_length: usize,
        roster: *const u8,
        roster_length: usize,
        triples: *mut u32,
        triples_length: usize,
        summary: *mut u32,
        summary_length: usize,
        weights: *mut u32,
        weights_length: usize,
        map: *mut u32,
        map_length: usize,
        work: *mut u32,
        work_length: usize,
        subject: u32,
        property: u32,
        object: u32,
        held: *mut usize,
        summarised: *mut usize,
        is_new: *mut u32,
        place: *mut usize,
    ) -> u32;

    pub fn ws_remove(
        words: *const u32,
        words_length: usize,
        roster: *const u8,
        roster_length: usize,
        triples: *mut u32,
        triples_length: usize,
        summary: *mut u32,
        summary_length: usize,
        weights: *mut u32,
        weights_length: usize,
        map: *mut u32,
        map_length: usize,
        work: *mut u32,
        work_length: usize,
        subject: u32,
        property: u32,
        object: u32,
        held: *mut usize,
        summarised: *mut usize,
        place: *mut usize,
    ) -> u32;

    pub fn ws_write(
        words: *const u32,
        words_length: usize,
        n: u32,
        table: *const u32,
        table_length: usize,
        out: *mut u8,
        out_length: usize,
        count: *mut usize,
    ) -> u32;

    pub fn ws_read(
        text: *const u8,
        text_length: usize,
        list: *mut u32,
        list_length: usize,
        queries: *mut u32,
        queries_length: usize,
        words: *mut u32,
        words_length: usize,
        n: *mut u32,
        count: *mut usize,
        asks: *mut usize,
    ) -> u32;
}
