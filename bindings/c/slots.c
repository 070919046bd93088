/* The slots that a weak summary may need: ws_slots_bound against numbers counted by hand and against a second, slow function,
   and weak summaries in lists cut to so many slots. The last line says how many checks failed. */
#include <stdio.h>
#include <string.h>

#include "weak_summary_slots.h"

#define N 32
#define MOST 90 /* numbers of a table */
#define FIVE RDFS, WS_WORDS_NUMBERS

static const uint32_t RDFS[WS_WORDS_NUMBERS] = WS_RDFS_WORDS;
static uint32_t result[MOST + 2], map[N], work[2 * N], scratch[MOST];
static uint8_t roster[N];
static size_t count;
static int checks, failures;

static void check(int holds, const char *what) {
    checks++;
    if (!holds && failures++ < 20) {
        printf("C slots: NOT SO: %s\n", what);
    }
}

static size_t bound(const uint32_t *table, size_t length) {
    return ws_slots_bound(FIVE, table, length, roster, N, scratch, length);
}

/* Summarises into so many numbers. */
static uint32_t summarise(const uint32_t *table, size_t length, size_t numbers) {
    return ws_summarise(FIVE, table, length, roster, N, result, numbers, map, N, work, 2 * N, &count);
}

/* Whether lists of so many slots take the summary, with no number more, one or two. */
static int fits(const uint32_t *table, size_t length, size_t slots, size_t lines) {
    int right = 1;
    for (size_t more = 0; more < 3; more++) {
        count = MOST;
        right = right && summarise(table, length, 3 * slots + more) == WS_OK && count == lines;
    }
    return right;
}

/* That a table with this roster has this bound, its summary so many triples, and that a slot fewer than these is refused. */
static void check_table(const uint32_t *table, size_t length, size_t slots, size_t lines) {
    check(bound(table, length) == slots, "the number that was counted by hand");
    check(fits(table, length, slots, lines), "the summary fits in so many slots");
    check(lines == 0 || summarise(table, length, 3 * lines - 1) == WS_REFUSED_SLOTS, "one slot too few is refused with 5");
}

static void check_own(const uint32_t *table, size_t length, size_t slots, size_t lines) {
    check(ws_own_roster(FIVE, table, length, roster, N) == WS_OK, "own roster accepted");
    check_table(table, length, slots, lines);
}

static void small_tables(void) {
    static const struct {
        uint32_t table[21];
        size_t length, slots, lines;
    } tables[] = {
        {{0}, 0, 0, 0},
        {{10, 5, 10}, 3, 1, 1},
        {{10, 5, 11, 11, 5, 12}, 6, 1, 1},
        {{10, 5, 20, 10, 6, 21, 11, 6, 22, 11, 7, 23}, 12, 3, 3}, /* no marked ends: a line for each property */
        {{10, 0, 8, 8, 5, 12, 8, 6, 13}, 9, 3, 3},                /* a class as a subject: fewer triples than cells */
        {{10, 0, 8, 8, 5, 8, 8, 5, 12, 8, 5, 13, 11, 5, 8, 11, 5, 12, 11, 5, 13}, 21, 5, 5}, /* a class at both sides */
        {{10, 5, 11, 10, 0, 8, 10, 5, 11, 10, 0, 8}, 12, 2, 2},   /* repeats count once */
        {{10, 0, 8, 11, 0, 8}, 6, 2, 1},                          /* a slot for each type triple */
        {{5, 2, 6, 5, 3, 8, 6, 4, 8, 8, 1, 9}, 12, 4, 4},
    };
    for (size_t k = 0; k < sizeof tables / sizeof *tables; k++) {
        check_own(tables[k].table, tables[k].length, tables[k].slots, tables[k].lines);
    }
}

/* Two of five subjects are marked by the roster that is lent, and then the object too. */
static void more_marks(void) {
    static const uint32_t table[15] = {8, 5, 20, 9, 5, 20, 10, 5, 20, 11, 5, 20, 12, 5, 20};
    check_own(table, 15, 1, 1);
    roster[8] = roster[9] = WS_CLASS;
    check_table(table, 15, 3, 3);
    roster[20] = WS_BOTH;
    check_table(table, 15, 5, 3);
}

/* The number for a table may be too low for the summary of its saturation, which has 9 triples here. */
static void saturation(void) {
    static const uint32_t table[15] = {5, 2, 6, 5, 3, 8, 10, 5, 20, 11, 5, 21, 12, 6, 22};
    uint32_t saturated[27];
    check_own(table, 15, 4, 4);
    check(ws_saturate(FIVE, table, 15, roster, N, saturated, 27, &count) == WS_OK && count == 9, "saturation accepted");
    check_table(saturated, 27, 6, 5);
    check(summarise(saturated, 27, 3 * 4) == WS_REFUSED_SLOTS, "the table's own number is too low");
}

/* 20 and 21 have different source cliques: strongly they are apart. */
static void strongly(void) {
    static const uint32_t table[9] = {10, 5, 20, 11, 5, 21, 21, 6, 30}, lines[9] = {10, 5, 20, 10, 5, 21, 21, 6, 30};
    check_own(table, 9, 2, 2);
    uint32_t status = ws_summarise_strong(FIVE, table, 9, roster, N, result, 6, map, N, work, 2 * N, &count);
    check(status == WS_REFUSED_SLOTS, "the strong summary may need more slots");
    status = ws_summarise_strong(FIVE, table, 9, roster, N, result, 9, map, N, work, 2 * N, &count);
    check(status == WS_OK && count == 3 && memcmp(result, lines, sizeof lines) == 0, "here it needs three");
}

/* Whether the triple at a place stands in front of it too. */
static int is_repeat(const uint32_t *table, size_t at) {
    int found = 0;
    for (size_t i = 0; i < at; i += 3) {
        found = found || memcmp(table + i, table + at, 3 * sizeof *table) == 0;
    }
    return found;
}

/* How many different triples have a property. */
static size_t distinct(const uint32_t *table, size_t triples, uint32_t property) {
    size_t found = 0;
    for (size_t i = 0; i < 3 * triples; i += 3) {
        found += table[i + 1] == property && !is_repeat(table, i);
    }
    return found;
}

/* Whether a code stands at a side, 0 or 2, of a triple with a property. */
static int stands(const uint32_t *table, size_t triples, uint32_t property, size_t side, uint32_t code) {
    int found = 0;
    for (size_t i = 0; i < 3 * triples; i += 3) {
        found = found || (table[i + 1] == property && table[i + side] == code);
    }
    return found;
}

static size_t marked_at(const uint32_t *table, size_t triples, uint32_t property, size_t side, size_t n) {
    size_t marked = 0;
    for (uint32_t code = 0; code < n; code++) {
        marked += roster[code] != 0 && stands(table, triples, property, side, code);
    }
    return marked;
}

static int is_word(const uint32_t *words, uint32_t property) {
    int found = 0;
    for (size_t k = 0; k < WS_WORDS_NUMBERS; k++) {
        found = found || words[k] == property;
    }
    return found;
}

/* The number, property by property and code by code. */
static size_t slowly(const uint32_t *words, const uint32_t *table, size_t triples, size_t n) {
    size_t slots = 0;
    for (uint32_t property = 0; property < n; property++) {
        size_t all = distinct(table, triples, property);
        size_t cells = (marked_at(table, triples, property, 0, n) + 1) * (marked_at(table, triples, property, 2, n) + 1);
        slots += is_word(words, property) ? 0 : all < cells ? all : cells;
    }
    for (size_t i = 0; i < 3 * triples; i += 3) {
        slots += is_word(words, table[i + 1]) && !is_repeat(table, i);
    }
    return slots;
}

static uint32_t random_below(uint32_t below) {
    static uint64_t seed = 1;
    seed = seed * UINT64_C(6364136223846793005) + UINT64_C(1442695040888963407);
    return (uint32_t)(seed >> 33) % below;
}

/* Numbers of every kind in every list, also beyond the roster. */
static void any_input(void) {
    uint32_t words[WS_WORDS_NUMBERS], table[MOST];
    size_t n = random_below(12), length = random_below(MOST);
    for (size_t i = 0; i < length; i++) {
        table[i] = random_below(12) == 0 ? WS_ABSENT - random_below(2) : random_below(12);
    }
    for (size_t i = 0; i < n; i++) {
        roster[i] = (uint8_t)(random_below(2) * random_below(256));
    }
    for (size_t k = 0; k < WS_WORDS_NUMBERS; k++) {
        words[k] = random_below(8) == 0 ? WS_ABSENT : random_below(12);
    }
    size_t slots = ws_slots_bound(words, WS_WORDS_NUMBERS, table, length, roster, n, scratch, length);
    check(slots == slowly(words, table, length / 3, n), "the number of any input");
}

/* A table of few nodes and two properties, with types, and up to three nodes marked besides. Whether every slot is needed. */
static int fills_its_list(void) {
    uint32_t table[MOST];
    size_t triples = random_below(MOST / 3 + 1);
    for (size_t i = 0; i < 3 * triples; i += 3) {
        table[i] = 7 + random_below(6);
        table[i + 1] = random_below(8) == 0 ? RDFS[WS_TYPE] : 5 + random_below(2);
        table[i + 2] = 7 + random_below(6);
    }
    check(ws_own_roster(FIVE, table, 3 * triples, roster, N) == WS_OK, "own roster accepted");
    for (uint32_t k = random_below(4); k > 0; k--) {
        roster[7 + random_below(6)] |= WS_CLASS;
    }
    size_t slots = bound(table, 3 * triples);
    check(slots == slowly(RDFS, table, triples, N), "the number of a table");
    check(summarise(table, 3 * triples, 3 * slots + random_below(3)) == WS_OK, "its summary is not refused with 5");
    return count == slots;
}

static void random_tables(void) {
    size_t filled = 0;
    for (int k = 0; k < 10000; k++) {
        any_input();
        filled += fills_its_list();
    }
    check(filled > 500 && filled < 9500, "some lists are filled, and some are not");
}

/* Lists of length 0, words that are not five, and a list to sort in that is too short. */
static void wrong_lengths(void) {
    static const uint32_t table[5] = {10, 0, 8, 11, 0};
    check(ws_slots_bound(FIVE, NULL, 0, NULL, 0, NULL, 0) == 0, "nothing needs no slot");
    check(ws_slots_bound(FIVE, table, 5, NULL, 0, scratch, 5) == 1, "without a roster a type triple counts");
    check(ws_slots_bound(FIVE, table, 2, roster, N, scratch, 2) == 0, "less than a triple");
    check(ws_slots_bound(RDFS, 4, table, 3, roster, N, scratch, 3) == 0, "four words");
    check(ws_slots_bound(NULL, 0, table, 3, roster, N, scratch, 3) == 0, "no words");
    check(ws_slots_bound(FIVE, table, 5, roster, N, scratch, 4) == 0, "a list to sort in that is too short");
}

int main(void) {
    small_tables();
    more_marks();
    saturation();
    strongly();
    random_tables();
    wrong_lengths();
    printf("C slots: %d checks, %d failed\n", checks, failures);
    return failures != 0;
}
