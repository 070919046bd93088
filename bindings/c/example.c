/* The papers' example through the C interface, in the header's sequence: read, own roster, saturate, summarise, ask; also a
   list cut to the slots that the summary may need, the same on the summary, queries that are retired, what ask says where the
   sequence is not kept, and an intake with the weights of its lines, from which triples are removed. Then all of it with other
   words than 0 to 4, the two summaries of a chain, places, and a chain that falls apart. Each result is checked against the
   papers'. */
#include <stdio.h>
#include <string.h>

#include "weak_summary_slots.h"

#define N 14
#define SLOTS 2048

static const char *const TEXT =
    "(site 14)\n(t 5 2 7)\n(t 6 2 7)\n(t 7 3 8)\n(t 8 1 9)\n(t 10 5 12)\n(t 11 6 13)\n"
    "(ask ((v 0) 5 (v 1)) ((v 0) 6 (v 2)))\n(ask ((v 0) 7 (v 1)) ((v 1) 7 (v 2)))\n";

static const uint32_t SUMMARY[] = {5,  2, 7, 5,  3, 8, 5,  3, 9,  6,  2, 7,  6,  3, 8,  6, 3, 9, 7, 3, 8,
                                   7,  3, 9, 8,  1, 9, 10, 0, 8,  10, 0, 9,  10, 5, 12, 10, 6, 12, 10, 7, 12};

/* How many of the saturation's 17 triples become each of these 14: 10 stands for 11 too, and 12 for 13. */
static const uint32_t WEIGHTS[] = {1, 1, 1, 1, 1, 1, 1, 1, 1, 2, 2, 1, 1, 2};

static const uint32_t MAP[N] = {WS_ABSENT, WS_ABSENT, WS_ABSENT, WS_ABSENT, WS_ABSENT, 5,  6,
                                7,         8,         9,         10,        10,        12, 12};

/* The same with the words 10 to 14: a code p below 5 is written p + 10, any other code c is written c - 5. */
#define OTHER_N 24
static const char *const OTHER_TEXT =
    "(site 24)\n(words 10 11 12 13 14)\n(t 0 12 2)\n(t 1 12 2)\n(t 2 13 3)\n(t 3 11 4)\n(t 5 0 7)\n(t 6 1 8)\n"
    "(ask ((v 0) 0 (v 1)) ((v 0) 1 (v 2)))\n(ask ((v 0) 2 (v 1)) ((v 1) 2 (v 2)))\n";

static const uint32_t OTHER_WORDS[WS_WORDS_NUMBERS] = {10, 11, 12, 13, 14};

static const uint32_t OTHER_SUMMARY[] = {0, 12, 2, 0, 13, 3, 0, 13, 4, 1, 12, 2, 1, 13, 3, 1, 13, 4, 2, 13, 3,
                                         2, 13, 4, 3, 11, 4, 5, 0,  7, 5, 1,  7, 5, 2,  7, 5, 10, 3, 5, 10, 4};

static const uint32_t OTHER_WEIGHTS[] = {1, 1, 1, 1, 1, 1, 1, 1, 1, 1, 1, 2, 2, 2};

static const uint32_t OTHER_MAP[9] = {0, 1, 2, 3, 4, 5, 5, 7, 7};

static uint32_t table[3 * SLOTS], saturated[3 * SLOTS], summary[3 * SLOTS];
static uint32_t queries[WS_QUERIES_NUMBERS], words[WS_WORDS_NUMBERS], map[OTHER_N], work[2 * OTHER_N];
static uint8_t roster[OTHER_N];
static int failures;

static void check(int holds, const char *what) {
    printf("  %s: %s\n", holds ? "as in the papers" : "NOT AS IN THE PAPERS", what);
    if (!holds) {
        failures++;
    }
}

static void print_triples(const uint32_t *list, size_t count) {
    for (size_t i = 0; i < count; i++) {
        printf("(t %u %u %u)\n", list[3 * i], list[3 * i + 1], list[3 * i + 2]);
    }
}

/* Reads a text with six triples, two queries and these words, and gives N. */
static uint32_t read_text(const char *text, const uint32_t *expected) {
    uint32_t n = 0;
    size_t given = 0, asks = 0;
    uint32_t status = ws_read((const uint8_t *)text, strlen(text), table, 3 * SLOTS, queries, WS_QUERIES_NUMBERS, words,
                              WS_WORDS_NUMBERS, &n, &given, &asks);
    check(status == WS_OK && given == 6 && asks == 2, "six triples and two queries read");
    check(memcmp(words, expected, sizeof words) == 0, "words of the text");
    return n;
}

/* Saturates the six triples into this many numbers. */
static uint32_t saturate(uint32_t n, uint32_t *result, size_t result_length, size_t *count) {
    return ws_saturate(words, WS_WORDS_NUMBERS, table, 18, roster, n, result, result_length, count);
}

/* What the maker of a controller does. Of the saturation's 17 triples 13 are schema and type triples, and each of the three
   data properties needs one slot, so a list of 16 slots takes the summary, which has 14 triples. */
static void cut_list(uint32_t n, size_t all) {
    size_t count = 0, slots = ws_slots_bound(words, WS_WORDS_NUMBERS, saturated, 3 * all, roster, n, summary, 3 * SLOTS);
    check(slots == 16, "its summary may need 16 slots");
    uint32_t status = ws_summarise(words, WS_WORDS_NUMBERS, saturated, 3 * all, roster, n, summary, 3 * slots, map, n, work,
                                   2 * n, &count);
    check(status == WS_OK && count == 14, "a list of 16 slots takes it");
    status = ws_summarise(words, WS_WORDS_NUMBERS, saturated, 3 * all, roster, n, summary, 3 * 13, map, n, work, 2 * n, &count);
    check(status == WS_REFUSED_SLOTS, "13 slots are refused with 5");
}

/* Saturates the six triples and summarises the saturation. */
static size_t saturate_and_summarise(uint32_t n) {
    size_t all = 0, count = 0;
    check(ws_own_roster(words, WS_WORDS_NUMBERS, table, 18, roster, n) == WS_OK, "own roster accepted");
    check(saturate(n, saturated, 3 * SLOTS, &all) == WS_OK, "saturation accepted");
    check(all == 17, "saturation has 17 triples");
    check(saturate(n, summary, 51, &all) == WS_OK, "saturation fits in 51 numbers");
    check(saturate(n, summary, 50, &all) == WS_REFUSED_SLOTS, "50 numbers are refused with 5");
    cut_list(n, all);
    uint32_t status = ws_summarise(words, WS_WORDS_NUMBERS, saturated, 3 * all, roster, n, summary, 3 * SLOTS, map, n, work,
                                   2 * n, &count);
    check(status == WS_OK, "summary accepted");
    print_triples(summary, count);
    return count;
}

/* What a controller does at each boot: it saturates its summary and summarises that, here into as many numbers as the summary
   has. The summary of a saturated table stays as it is. The second map has its nodes only, so the first is kept. */
static void rework(uint32_t n, size_t count) {
    static uint32_t again[sizeof SUMMARY / sizeof *SUMMARY], second[OTHER_N];
    size_t all = 0, same = 0;
    uint32_t status = ws_saturate(words, WS_WORDS_NUMBERS, summary, 3 * count, roster, n, saturated, 3 * count, &all);
    check(status == WS_OK && all == count && memcmp(saturated, summary, sizeof again) == 0, "the summary is saturated already");
    status = ws_summarise(words, WS_WORDS_NUMBERS, saturated, 3 * all, roster, n, again, sizeof again / sizeof *again, second, n,
                          work, 2 * n, &same);
    check(status == WS_OK && same == count && memcmp(again, summary, sizeof again) == 0, "summarised again it is the same");
    int right = 1;
    for (uint32_t c = 0; c < n; c++) {
        right = right && second[c] == (map[c] == c ? c : WS_ABSENT);
    }
    check(right, "each of its nodes represents itself, all other codes are absent");
}

static void ask_both(uint32_t n, size_t count) {
    static const uint32_t expected[2] = {1, 0};
    for (size_t k = 0; k < 2; k++) {
        uint32_t maybe = 2;
        const uint32_t *query = queries + WS_QUERY_NUMBERS * k;
        uint32_t status = ws_ask(words, WS_WORDS_NUMBERS, summary, 3 * count, map, n, query, WS_QUERY_NUMBERS, &maybe);
        printf("(ask %s)\n", maybe == 1 ? "maybe" : "none");
        check(status == WS_OK && maybe == expected[k], k == 0 ? "first query: maybe" : "second query: none");
    }
}

/* Asks whether something has the word at each place as a property. Of the words only type is answered. */
static void ask_words(uint32_t n, size_t count) {
    for (size_t k = 0; k < WS_WORDS_NUMBERS; k++) {
        const uint32_t query[WS_QUERY_NUMBERS] = {1, WS_VARIABLE, 0, words[k], WS_VARIABLE, 1};
        uint32_t maybe = 2;
        uint32_t status = ws_ask(words, WS_WORDS_NUMBERS, summary, 3 * count, map, n, query, WS_QUERY_NUMBERS, &maybe);
        if (k == WS_TYPE) {
            check(status == WS_OK && maybe == 1, "a query about types: maybe");
        } else {
            check(status == WS_REFUSED_RETIRED && maybe == 2, "a query for schema triples is refused with 12");
        }
    }
}

/* Asks whether a subject has a property, by a map. */
static uint32_t ask_one(const uint32_t *list, size_t count, const uint32_t *by, uint32_t kind, uint32_t subject,
                        uint32_t property) {
    const uint32_t query[WS_QUERY_NUMBERS] = {1, kind, subject, property, WS_VARIABLE, 1};
    uint32_t maybe = 2;
    check(ws_ask(words, WS_WORDS_NUMBERS, list, 3 * count, by, N, query, WS_QUERY_NUMBERS, &maybe) == WS_OK, "query accepted");
    return maybe;
}

/* Whether the saturation has a triple at a place, counted from 0. */
static int saturation_has(size_t all, uint32_t subject, uint32_t property, uint32_t object, size_t at) {
    uint32_t found = 2;
    size_t place = 99;
    return ws_look_up(saturated, 3 * all, subject, property, object, &found, &place) == WS_OK && found == 1 && place == at;
}

/* "none" is safe only of the summary of the saturated table, asked by that summary's own map. Property 7 has triples in the
   saturation only, so the plain summary wrongly says "none" of it; and 11, represented by 10, is no node of the summary, so by
   the plain map, in which 11 is itself, the summary wrongly says "none" of 11. */
static void wrong_none(size_t count) {
    static uint32_t plain[18], plain_map[N];
    size_t all = 0, plain_count = 0;
    uint32_t status =
        ws_summarise(words, WS_WORDS_NUMBERS, table, 18, roster, N, plain, 18, plain_map, N, work, 2 * N, &plain_count);
    check(status == WS_OK && plain_count == 6, "plain summary has 6 triples");
    check(saturate(N, saturated, 3 * SLOTS, &all) == WS_OK, "saturation accepted");
    check(saturation_has(all, 10, 7, 12, 12), "10 7 12 is in the saturation, behind 12 triples");
    check(ask_one(plain, plain_count, plain_map, WS_VARIABLE, 0, 7) == 0, "plain summary: none has 7, which is wrong");
    check(ask_one(summary, count, map, WS_VARIABLE, 0, 7) == 1, "summary of the saturation: maybe");
    check(saturation_has(all, 11, 6, 13, 15), "11 6 13 is in the saturation, behind 15 triples");
    check(ask_one(summary, count, plain_map, WS_CODE, 11, 6) == 0, "by another map: none, which is wrong");
    check(ask_one(summary, count, map, WS_CODE, 11, 6) == 1, "by its own map: maybe");
}

/* An intake of as many slots as the saturation has triples, or fewer. */
static uint32_t held_triples[51], held_summary[51], held_weights[17], held_map[OTHER_N];
static size_t held, summarised;

static uint32_t open_intake(uint32_t n, size_t slots) {
    return ws_open(words, WS_WORDS_NUMBERS, roster, n, held_triples, 3 * slots, held_summary, 3 * slots, held_weights, slots,
                   held_map, n, &held, &summarised);
}

static uint32_t feed(uint32_t n, size_t slots, const uint32_t *t, uint32_t *is_new, size_t *place) {
    return ws_feed(words, WS_WORDS_NUMBERS, roster, n, held_triples, 3 * slots, held_summary, 3 * slots, held_weights, slots,
                   held_map, n, work, 2 * n, t[0], t[1], t[2], &held, &summarised, is_new, place);
}

static uint32_t remove_triple(uint32_t n, size_t slots, const uint32_t *t, size_t *place) {
    return ws_remove(words, WS_WORDS_NUMBERS, roster, n, held_triples, 3 * slots, held_summary, 3 * slots, held_weights, slots,
                     held_map, n, work, 2 * n, t[0], t[1], t[2], &held, &summarised, place);
}

/* What the weights of the intake's summary add up to. */
static size_t weight_sum(void) {
    size_t sum = 0;
    for (size_t i = 0; i < summarised; i++) {
        sum += held_weights[i];
    }
    return sum;
}

/* Prints each line of the intake's summary with its weight, and gives the sum of the weights. */
static size_t print_weighed(void) {
    for (size_t i = 0; i < summarised; i++) {
        const uint32_t *t = held_summary + 3 * i;
        printf("(t %u %u %u) stands for %u\n", t[0], t[1], t[2], held_weights[i]);
    }
    return weight_sum();
}

/* Feeds the six triples, last first, each twice, to an intake of six slots: each comes before all that are held. Then first to
   last once more: each has its place. */
static void feed_all(uint32_t n) {
    static const uint32_t ones[6] = {1, 1, 1, 1, 1, 1};
    int right = open_intake(n, 6) == WS_OK;
    for (size_t i = 0; i < 18; i++) {
        const uint32_t *t = table + 3 * (i < 12 ? 5 - i / 2 : i - 12);
        uint32_t is_new = 2;
        size_t place = 99;
        uint32_t status = feed(n, 6, t, &is_new, &place);
        right = right && status == WS_OK && is_new == (i < 12 && i % 2 == 0) && place == (i < 12 ? 0 : i - 12);
    }
    check(right, "each triple is new once, at its place; a repeat fed to a full intake passes");
    check(held == 6 && memcmp(held_triples, table, 18 * sizeof *table) == 0, "the intake holds the six, in rising order");
    check(summarised == 6, "plain summary has 6 triples");
    check(print_weighed() == 6 && memcmp(held_weights, ones, sizeof ones) == 0, "each stands for one triple");
}

/* Feeds the saturation: of its 17 triples each is new, and the 14 lines of the summary stand for all of them. */
static void weigh(uint32_t n, const uint32_t *expected, const uint32_t *weights) {
    size_t all = 0;
    int right = saturate(n, saturated, 3 * SLOTS, &all) == WS_OK && all == 17 && open_intake(n, 17) == WS_OK;
    for (size_t i = 0; i < all; i++) {
        uint32_t is_new = 2;
        size_t place = 99;
        right = right && feed(n, 17, saturated + 3 * i, &is_new, &place) == WS_OK && is_new == 1 && place == i;
    }
    check(right && held == 17, "each triple of the saturation is new");
    check(summarised == 14 && memcmp(held_summary, expected, sizeof SUMMARY) == 0, "the summary of the saturation");
    check(print_weighed() == 17, "its weights add up to 17");
    check(memcmp(held_weights, weights, sizeof WEIGHTS) == 0, "the weights of its 14 lines");
    check(held_weights[14] == 0 && held_weights[15] == 0 && held_weights[16] == 0, "the weights behind them are zero");
}

/* Whether each of so many numbers is this one. */
static int all_are(const uint32_t *list, size_t length, uint32_t value) {
    size_t same = 0;
    while (same < length && list[same] == value) {
        same++;
    }
    return same == length;
}

/* Removes from the intake the triples that the rules gave, last first, each twice. The six are left, and their plain summary:
   10 and 11 are no more one class, nor are 12 and 13, and each line stands for one triple. */
static void take_back(uint32_t n) {
    static const uint32_t ones[6] = {1, 1, 1, 1, 1, 1};
    int right = 1;
    for (size_t i = 17; i-- > 0;) {
        const uint32_t *t = saturated + 3 * i;
        uint32_t given = 2;
        size_t place = 99;
        ws_look_up(table, 18, t[0], t[1], t[2], &given, &place);
        if (given == 0) {
            right = right && remove_triple(n, 17, t, &place) == WS_OK && place == i && weight_sum() == held;
            place = 99;
            right = right && remove_triple(n, 17, t, &place) == WS_REFUSED_MISSING && place == 0;
        }
    }
    check(right, "what the rules gave is removed, each triple at its place and once; the weights add up to what is left");
    check(held == 6 && memcmp(held_triples, table, 18 * sizeof *table) == 0, "the six are left");
    check(summarised == 6 && memcmp(held_summary, table, 18 * sizeof *table) == 0, "and their plain summary");
    check(print_weighed() == 6 && memcmp(held_weights, ones, sizeof ones) == 0 && all_are(held_weights + 6, 11, 0),
          "each line stands for one triple");
    check(all_are(held_triples + 18, 33, 0) && all_are(held_summary + 18, 33, 0), "behind them all is zero");
}

/* Removes the six, first to last. Then all is as after the opening. */
static void take_all(uint32_t n) {
    int right = 1;
    for (size_t i = 0; i < 6; i++) {
        size_t place = 99;
        right = right && remove_triple(n, 17, table + 3 * i, &place) == WS_OK && place == 0 && held == 5 - i;
    }
    check(right && held == 0 && summarised == 0, "the six are removed");
    check(all_are(held_triples, 51, 0) && all_are(held_summary, 51, 0) && all_are(held_weights, 17, 0), "the lists are zero");
    check(all_are(held_map, n, WS_ABSENT), "and no code is a node");
}

static void the_papers_words(void) {
    static const uint32_t rdfs[WS_WORDS_NUMBERS] = WS_RDFS_WORDS;
    check(read_text(TEXT, rdfs) == N, "site of 14");
    size_t count = saturate_and_summarise(N);
    check(count == 14 && memcmp(summary, SUMMARY, sizeof SUMMARY) == 0, "summary of 14 triples");
    check(memcmp(map, MAP, sizeof MAP) == 0, "map");
    rework(N, count);
    ask_both(N, count);
    ask_words(N, count);
    wrong_none(count);
    feed_all(N);
    weigh(N, SUMMARY, WEIGHTS);
    take_back(N);
    take_all(N);
}

/* The words stand in the text that is written, too. */
static void write_back(void) {
    static uint8_t out[200];
    size_t count = 0;
    check(ws_write(words, WS_WORDS_NUMBERS, OTHER_N, table, 18, out, sizeof out, &count) == WS_OK, "text accepted");
    check(count == (size_t)(strstr(OTHER_TEXT, "(ask") - OTHER_TEXT) && memcmp(out, OTHER_TEXT, count) == 0,
          "text written with the words");
}

static void other_words(void) {
    int absent = 1;
    check(read_text(OTHER_TEXT, OTHER_WORDS) == OTHER_N, "site of 24");
    size_t count = saturate_and_summarise(OTHER_N);
    check(count == 14 && memcmp(summary, OTHER_SUMMARY, sizeof OTHER_SUMMARY) == 0, "summary of 14 triples, other words");
    for (size_t c = 9; c < OTHER_N; c++) {
        absent = absent && map[c] == WS_ABSENT;
    }
    check(absent && memcmp(map, OTHER_MAP, sizeof OTHER_MAP) == 0, "map, other words");
    rework(OTHER_N, count);
    ask_both(OTHER_N, count);
    ask_words(OTHER_N, count);
    feed_all(OTHER_N);
    weigh(OTHER_N, OTHER_SUMMARY, OTHER_WEIGHTS);
    take_back(OTHER_N);
    take_all(OTHER_N);
    write_back();
}

/* Asks for the own roster with words that are refused. */
static uint32_t refusal(const uint32_t *wrong, size_t length) {
    return ws_own_roster(wrong, length, table, 18, roster, OTHER_N);
}

static void refused_words(void) {
    static const uint32_t equal[WS_WORDS_NUMBERS] = {10, 11, 12, 13, 13};
    static const uint32_t too_large[WS_WORDS_NUMBERS] = {10, 11, 12, 13, OTHER_N};
    uint8_t before[OTHER_N];
    memset(before, 9, OTHER_N);
    memcpy(roster, before, OTHER_N);
    check(refusal(equal, WS_WORDS_NUMBERS) == WS_REFUSED_WORDS, "equal words are refused with 10");
    check(refusal(too_large, WS_WORDS_NUMBERS) == WS_REFUSED_WORDS, "a word not below N is refused with 10");
    check(refusal(OTHER_WORDS, 4) == WS_REFUSED_LENGTH, "four words are refused with 1");
    check(memcmp(roster, before, OTHER_N) == 0, "refused calls alter nothing");
}

/* A chain of three nodes: weakly they are one, strongly no two have the same cliques. */
static void both_summaries(void) {
    static const uint32_t rdfs[WS_WORDS_NUMBERS] = WS_RDFS_WORDS;
    static const uint32_t chain[6] = {10, 5, 11, 11, 5, 12}, loop[6] = {10, 5, 10};
    size_t weak = 0, strong = 0;
    check(ws_own_roster(rdfs, WS_WORDS_NUMBERS, chain, 6, roster, N) == WS_OK, "own roster of a chain");
    uint32_t status =
        ws_summarise(rdfs, WS_WORDS_NUMBERS, chain, 6, roster, N, summary, 6, map, N, work, 2 * N, &weak);
    check(status == WS_OK && weak == 1 && memcmp(summary, loop, sizeof loop) == 0, "weak summary of a chain");
    status = ws_summarise_strong(rdfs, WS_WORDS_NUMBERS, chain, 6, roster, N, summary, 6, map, N, work, 2 * N, &strong);
    check(status == WS_OK && strong == 2 && memcmp(summary, chain, sizeof chain) == 0, "strong summary of a chain");
    status = ws_summarise_strong(rdfs, WS_WORDS_NUMBERS, chain, 6, roster, N, summary, 5, map, N, work, 2 * N, &strong);
    check(status == WS_REFUSED_SLOTS && map[10] == 0, "strongly, 5 numbers are refused with 5");
}

/* Where triples belong in a list without order, in which 5 2 7 stands twice. */
static void places(void) {
    static const uint32_t list[12] = {11, 6, 13, 5, 2, 7, 10, 5, 12, 5, 2, 7};
    static const uint32_t asked[5][3] = {{5, 2, 7}, {10, 5, 12}, {11, 6, 13}, {10, 5, 11}, {11, 6, 14}};
    static const size_t expected[5] = {0, 2, 3, 2, 4};
    uint32_t found;
    size_t place;
    for (size_t k = 0; k < 5; k++) {
        found = 2;
        place = 99;
        uint32_t status = ws_look_up(list, 12, asked[k][0], asked[k][1], asked[k][2], &found, &place);
        check(status == WS_OK && found == (k < 3) && place == expected[k], "a triple's place, in the list or not");
    }
    found = 2;
    place = 99;
    check(ws_look_up(list, 11, 11, 6, 13, &found, &place) == WS_REFUSED_LENGTH && found == 2 && place == 0,
          "a refused call reports place 0");
}

/* A chain of four nodes is one class. Without its middle they are two classes, though the line still stands for two triples.
   The slot set free takes a later triple. */
static void chain_apart(void) {
    static const uint32_t chain[9] = {5, 8, 7, 7, 8, 9, 9, 8, 10}, more[3] = {7, 8, 5}, one[3] = {5, 8, 5}, two[3] = {5, 8, 7};
    static const uint32_t rdfs[WS_WORDS_NUMBERS] = WS_RDFS_WORDS;
    uint32_t is_new = 2;
    size_t place = 99;
    memcpy(words, rdfs, sizeof words);
    check(ws_own_roster(words, WS_WORDS_NUMBERS, chain, 9, roster, N) == WS_OK && open_intake(N, 3) == WS_OK, "chain accepted");
    for (size_t i = 0; i < 3; i++) {
        check(feed(N, 3, chain + 3 * i, &is_new, &place) == WS_OK && is_new == 1 && place == i, "a triple of the chain");
    }
    check(summarised == 1 && memcmp(held_summary, one, sizeof one) == 0 && held_weights[0] == 3, "one line for all three");
    check(feed(N, 3, more, &is_new, &place) == WS_REFUSED_FULL && held == 3, "the intake is full");
    check(remove_triple(N, 3, chain + 3, &place) == WS_OK && place == 1 && held == 2, "the middle is removed");
    check(summarised == 1 && memcmp(held_summary, two, sizeof two) == 0 && held_weights[0] == 2, "one line for two");
    check(held_map[5] == 5 && held_map[9] == 5 && held_map[7] == 7 && held_map[10] == 7, "two classes");
    check(feed(N, 3, chain + 3, &is_new, &place) == WS_OK && is_new == 1 && place == 1 && held == 3, "and fed again");
    check(summarised == 1 && memcmp(held_summary, one, sizeof one) == 0 && held_weights[0] == 3, "one line for three again");
}

int main(void) {
    the_papers_words();
    other_words();
    both_summaries();
    refused_words();
    places();
    chain_apart();
    printf("C example: %d results differ from the papers'\n", failures);
    return failures != 0;
}
