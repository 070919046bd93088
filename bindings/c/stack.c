/* Measures the stack that each call uses. The call runs on a painted stack of its own, and what counts is how far down the
   paint is gone, with the call's arguments. The lists are the largest: 65,536 codes and 1,048,576 triples. Their numbers send
   the sort down as far as it goes, 16 halvings for each of three places. The queries have eight patterns and send ask through
   each stage of its search, at last with two variables fixed, one within the other, the most that a query was seen to need;
   tables of several sizes show that they make no difference. A number over the header's is a failure. */
#define _XOPEN_SOURCE 700
#include <stdio.h>
#include <string.h>
#include <ucontext.h>

#include "weak_summary.h"

#define N WS_MAX_SIZE
#define MOST WS_MAX_TRIPLES
#define FIVE WORDS, WS_WORDS_NUMBERS
#define STACK_BYTES 1048576
#define PAINT 165

struct call {
    const char *name;
    size_t said; /* the header's number */
    size_t most; /* the largest that was measured */
};

static struct call own_roster = {"ws_own_roster", WS_STACK_OTHERS, 0};
static struct call saturate = {"ws_saturate", WS_STACK_SORTING, 0};
static struct call cliques = {"ws_cliques", WS_STACK_OTHERS, 0};
static struct call summarise = {"ws_summarise", WS_STACK_SORTING, 0};
static struct call summarise_strong = {"ws_summarise_strong", WS_STACK_SORTING, 0};
static struct call look_up = {"ws_look_up", WS_STACK_OTHERS, 0};
static struct call ask = {"ws_ask", WS_STACK_ASK, 0};
static struct call opening = {"ws_open", WS_STACK_OTHERS, 0};
static struct call feed = {"ws_feed", WS_STACK_SORTING, 0};
static struct call removal = {"ws_remove", WS_STACK_SORTING, 0};
static struct call writing = {"ws_write", WS_STACK_OTHERS, 0};
static struct call reading = {"ws_read", WS_STACK_READ, 0};

static const uint32_t WORDS[WS_WORDS_NUMBERS] = {100, 101, 102, 103, 104};

/* Triples that stay together until the sort has halved each of the three places down to one number. One is a repeat. 30 is
   represented by 20, and 25 between them by itself, so two images are equal and those of a rising table are out of order. */
static const uint32_t CORNERS[][3] = {{65535, 0, 0}, {0, 65535, 0},  {0, 0, 65535},  {0, 0, 0},  {0, 0, 0},
                                      {20, 0, 0},    {20, 65535, 0}, {20, 0, 65535}, {25, 0, 0}, {30, 0, 0}};
#define CORNER_COUNT (sizeof CORNERS / sizeof *CORNERS)

static unsigned char stack[STACK_BYTES];
static ucontext_t outside, inside;

static uint32_t table[3 * MOST], result[3 * MOST], summary[3 * MOST], weights[MOST], map[N], work[2 * N];
static uint32_t query[WS_QUERY_NUMBERS], queries[WS_QUERIES_NUMBERS], words[WS_WORDS_NUMBERS];
static uint8_t roster[N], own[N], text[65536];
static size_t given, slots, count, held, summarised, place, text_length;
static uint32_t status, answer, fed_property, fed_object;
static uint64_t seed = 1;
static int failures;

static void fail(const char *name, const char *what) {
    printf("%s: %s\n", name, what);
    failures++;
}

static void nothing(void) {
}

/* How many bytes of the painted stack a job reaches. */
static size_t depth(void (*job)(void)) {
    size_t untouched = 0;
    memset(stack, PAINT, sizeof stack);
    getcontext(&inside);
    inside.uc_stack.ss_sp = stack;
    inside.uc_stack.ss_size = sizeof stack;
    inside.uc_link = &outside;
    makecontext(&inside, job, 0);
    swapcontext(&outside, &inside);
    while (untouched < sizeof stack && stack[untouched] == PAINT) {
        untouched++;
    }
    return sizeof stack - untouched;
}

/* Measures a job that makes one call, which must answer as expected. */
static void measure(struct call *call, void (*job)(void), uint32_t expected) {
    size_t used = depth(job) - depth(nothing);
    if (status != expected) {
        fail(call->name, "answered something else than expected");
    }
    if (call->most < used) {
        call->most = used;
    }
}

static void run_own_roster(void) {
    status = ws_own_roster(FIVE, table, 3 * given, own, N);
}

static void run_saturate(void) {
    status = ws_saturate(FIVE, table, 3 * given, roster, N, result, 3 * slots, &count);
}

static void run_cliques(void) {
    status = ws_cliques(FIVE, table, 3 * given, roster, N, map, N, work, N);
}

static void run_summarise(void) {
    status = ws_summarise(FIVE, table, 3 * given, roster, N, result, 3 * slots, map, N, work, 2 * N, &count);
}

static void run_summarise_strong(void) {
    status = ws_summarise_strong(FIVE, table, 3 * given, roster, N, result, 3 * slots, map, N, work, 2 * N, &count);
}

static void run_look_up(void) {
    status = ws_look_up(table, 3 * given, 1, 2, 3, &answer, &place);
}

static void run_ask(void) {
    status = ws_ask(FIVE, table, 3 * given, map, N, query, WS_QUERY_NUMBERS, &answer);
}

static void run_open(void) {
    status = ws_open(FIVE, roster, N, table, 3 * MOST, summary, 3 * MOST, weights, MOST, map, N, &held, &summarised);
}

static void run_feed(void) {
    status = ws_feed(FIVE, roster, N, table, 3 * MOST, summary, 3 * MOST, weights, MOST, map, N, work, 2 * N, 30,
                     fed_property, fed_object, &held, &summarised, &answer, &place);
}

/* Removes what run_feed feeds. */
static void run_remove(void) {
    status = ws_remove(FIVE, roster, N, table, 3 * MOST, summary, 3 * MOST, weights, MOST, map, N, work, 2 * N, 30,
                       fed_property, fed_object, &held, &summarised, &place);
}

static void run_write(void) {
    status = ws_write(FIVE, N, table, 3 * given, text, sizeof text, &count);
}

static void run_read(void) {
    status = ws_read(text, text_length, result, 3 * slots, queries, WS_QUERIES_NUMBERS, words, WS_WORDS_NUMBERS, &answer,
                     &count, &held);
}

static void put(uint32_t subject, uint32_t property, uint32_t object) {
    uint32_t *t = table + 3 * given;
    t[0] = subject;
    t[1] = property;
    t[2] = object;
    given++;
}

static uint32_t random_below(uint32_t bound) {
    seed = seed * UINT64_C(6364136223846793005) + UINT64_C(1442695040888963407);
    return (uint32_t)(seed >> 33) % bound;
}

/* A code that is no word. */
static uint32_t random_node(void) {
    uint32_t c = random_below(N);
    return c < 100 || c > 104 ? c : 99;
}

/* Random triples with the properties 7 to 14 until the table has so many. */
static void fill(size_t triples) {
    while (given < triples) {
        put(random_node(), 7 + random_below(8), random_node());
    }
}

/* The corners, random triples, and the corners again. */
static void fill_with_corners(void) {
    given = 0;
    for (size_t i = 0; i < CORNER_COUNT; i++) {
        put(CORNERS[i][0], CORNERS[i][1], CORNERS[i][2]);
    }
    fill(MOST - CORNER_COUNT - 4);
    for (size_t i = 0; i < CORNER_COUNT; i++) {
        put(CORNERS[i][0], CORNERS[i][1], CORNERS[i][2]);
    }
}

/* Random triples, and 15 under 0 and 65,535 and 16 under 0. The rules give one of eight triples twice, so a list that is just
   long enough is sorted before the last. */
static void fill_with_schema(void) {
    static const uint32_t lines[][3] = {{15, 102, 0},   {15, 102, 65535}, {16, 102, 0},   {0, 15, 0},
                                        {0, 15, 65535}, {0, 16, 0},       {65535, 15, 0}, {65535, 15, 65535}};
    given = 0;
    for (size_t i = 0; i < sizeof lines / sizeof *lines; i++) {
        put(lines[i][0], lines[i][1], lines[i][2]);
    }
    fill(MOST - 64);
}

/* Every code is marked, so that it represents itself, but for the words, 20 and 30. */
static void mark_nearly_all(void) {
    memset(roster, WS_BOTH, N);
    for (size_t i = 0; i < WS_WORDS_NUMBERS; i++) {
        roster[WORDS[i]] = WS_UNMARKED;
    }
    roster[20] = roster[30] = WS_UNMARKED;
}

/* A call with a result: in a list with slots to spare, in one that is just long enough, and in one that is too short. */
static void measure_result(struct call *call, void (*job)(void)) {
    slots = MOST;
    measure(call, job, WS_OK);
    slots = count;
    measure(call, job, WS_OK);
    slots = count - 1;
    measure(call, job, WS_REFUSED_SLOTS);
}

/* Nearly all codes marked, then the own roster, then the rules at work. */
static void measure_tables(void) {
    mark_nearly_all();
    fill_with_corners();
    measure(&own_roster, run_own_roster, WS_OK);
    measure(&look_up, run_look_up, WS_OK);
    measure(&cliques, run_cliques, WS_OK);
    measure_result(&saturate, run_saturate);
    measure_result(&summarise, run_summarise);
    measure_result(&summarise_strong, run_summarise_strong);
    memcpy(roster, own, N);
    measure(&cliques, run_cliques, WS_OK);
    measure_result(&summarise, run_summarise);
    measure_result(&summarise_strong, run_summarise_strong);
    mark_nearly_all();
    fill_with_schema();
    measure_result(&saturate, run_saturate);
}

/* Feeds three triples of a property and removes them again. */
static void measure_calls(uint32_t property) {
    fed_property = property;
    for (fed_object = 20; fed_object < 23; fed_object++) {
        answer = 0;
        measure(&feed, run_feed, WS_OK);
        if (answer != 1) {
            fail("ws_feed", "the triple was not new");
        }
    }
    for (fed_object = 20; fed_object < 23; fed_object++) {
        measure(&removal, run_remove, WS_OK);
        measure(&removal, run_remove, WS_REFUSED_MISSING);
    }
}

/* An intake with room for a few triples more. Its lists are as feeds leave them: a rising table, its summary and its map; but
   for the weights, which are zero: the first feed makes them anew. */
static void measure_intake(void) {
    mark_nearly_all();
    fill_with_corners();
    slots = MOST;
    run_saturate();
    measure(&opening, run_open, WS_OK);
    held = count;
    memcpy(table, result, sizeof table);
    given = held;
    run_summarise();
    memcpy(summary, result, sizeof summary);
    summarised = count;
    measure_calls(14); /* many others have it, and keep the ends of these */
    measure_calls(16); /* no other has it, so without the last of these the summary is made anew */
}

static void ask_expecting(uint32_t expected) {
    answer = 2;
    measure(&ask, run_ask, WS_OK);
    if (answer != expected) {
        fail("ws_ask", "answered something else than expected");
    }
}

/* Eight patterns that the triple at a place fits, with its subject as a code or as a variable; perhaps the last fits
   nothing. */
static void make_query(size_t place, int by_variable, int fits) {
    const uint32_t *t = table + 3 * place;
    query[0] = WS_MAX_PATTERNS;
    for (uint32_t k = 0; k < WS_MAX_PATTERNS; k++) {
        uint32_t *pattern = query + 1 + 5 * k;
        pattern[0] = by_variable ? WS_VARIABLE : WS_CODE;
        pattern[1] = by_variable ? k : t[0];
        pattern[2] = t[1];
        pattern[3] = WS_CODE;
        pattern[4] = fits || k + 1 < WS_MAX_PATTERNS ? t[2] : 199;
    }
}

/* Patterns of variables: subject, property, object. */
static void make_open(const uint32_t (*patterns)[3], uint32_t count_of) {
    query[0] = count_of;
    for (uint32_t k = 0; k < count_of; k++) {
        uint32_t *pattern = query + 1 + 5 * k;
        pattern[0] = pattern[3] = WS_VARIABLE;
        pattern[1] = patterns[k][0];
        pattern[2] = patterns[k][1];
        pattern[4] = patterns[k][2];
    }
}

/* In rising order: 200 to 219 lead to each other by 7. 300 to 319 lead by 9 to all of these but the last, and by 8 each to
   the one before it, so no two of them lead to each other. Only 400 leads to the last by 9, and 400 and 401 to each other by
   8. Other triples follow until the table has so many. */
static void fill_core(size_t triples) {
    given = 0;
    for (uint32_t i = 0; i < 20; i++) {
        for (uint32_t j = 0; j < 20; j++) {
            if (j != i) {
                put(200 + i, 7, 200 + j);
            }
        }
    }
    for (uint32_t i = 0; i < 20; i++) {
        put(300 + i, 8, 300 + (i + 19) % 20);
        for (uint32_t j = 0; j < 19; j++) {
            put(300 + i, 9, 200 + j);
        }
    }
    put(400, 8, 401);
    put(400, 9, 219);
    put(401, 8, 400);
    for (uint32_t i = 0; given < triples; i++) {
        put(500 + i / 32, 10, 500 + i % 32);
    }
}

/* Three pairs of variables that lead to each other, joined. 400 and 401 are the only nodes for the third, and are found late,
   so variables of two pairs are fixed, one within the other. Apart: the fourth pattern fits nothing. */
static const uint32_t PAIRS[8][3] = {{0, 7, 1}, {1, 7, 0}, {1, 7, 2}, {2, 7, 3}, {3, 7, 2}, {4, 9, 3}, {5, 8, 4}, {4, 8, 5}};
static const uint32_t APART[4][3] = {{0, 7, 1}, {2, 7, 3}, {4, 7, 5}, {6, 11, 7}};

/* Every stage of the search on the table as it is. */
static void measure_stages(void) {
    for (int k = 0; k < 8; k++) {
        make_query(k < 4 ? given - 1 : 0, k % 4 / 2, k % 2);
        ask_expecting(k % 2);
    }
    make_open(APART, 4);
    ask_expecting(0);
    make_open(PAIRS, 8);
    ask_expecting(1);
    make_open(PAIRS + 3, 5);
    ask_expecting(1);
}

/* The first triple and the last change places. */
static void disorder(void) {
    uint32_t first[3];
    memcpy(first, table, sizeof first);
    memcpy(table, table + 3 * given - 3, sizeof first);
    memcpy(table + 3 * given - 3, first, sizeof first);
}

/* Tables in rising order, and out of it. */
static void measure_ask(void) {
    static const size_t sizes[] = {0, 4000, 40000, MOST};
    for (uint32_t c = 0; c < N; c++) {
        map[c] = c;
    }
    for (size_t i = 0; i < sizeof sizes / sizeof *sizes; i++) {
        fill_core(sizes[i]);
        measure_stages();
        disorder();
        measure_stages();
    }
}

static void append(const char *form, int times) {
    for (int k = 0; k < times; k++) {
        memcpy(text + text_length, form, strlen(form));
        text_length += strlen(form);
    }
}

/* The longest text: each number has ten digits. */
static void make_text(void) {
    text_length = 0;
    append("(site 4294967295)\n(words 4294967295 4294967295 4294967295 4294967295 4294967295)\n", 1);
    append("(t 4294967295 4294967295 4294967295)\n", WS_MAX_TEXT_TRIPLES);
    for (int k = 0; k < WS_MAX_ASKS; k++) {
        append("(ask", 1);
        append(" ((c 4294967295) 4294967295 (v 4294967295))", WS_MAX_PATTERNS);
        append(")\n", 1);
    }
}

static void measure_texts(void) {
    given = 0;
    while (given < WS_MAX_TEXT_TRIPLES) {
        put(65535, 65535, 65535);
    }
    measure(&writing, run_write, WS_OK);
    make_text();
    slots = WS_MAX_TEXT_TRIPLES;
    measure(&reading, run_read, WS_OK);
    slots = 1;
    measure(&reading, run_read, WS_REFUSED_SLOTS);
    text_length--;
    measure(&reading, run_read, WS_REFUSED_FORM);
}

static void report(const struct call *call) {
    printf("%-20s %6zu bytes of stack, in the header %6zu\n", call->name, call->most, call->said);
    if (call->most == 0 || call->said < call->most) {
        fail(call->name, "not the header's number");
    }
}

int main(void) {
    static const struct call *const all[] = {&own_roster, &saturate, &cliques, &summarise, &summarise_strong, &look_up,
                                             &ask,        &opening,  &feed,    &removal,   &writing,          &reading};
    measure_tables();
    measure_intake();
    measure_ask();
    measure_texts();
    for (size_t i = 0; i < sizeof all / sizeof *all; i++) {
        report(all[i]);
    }
    printf("C stack: %d failures\n", failures);
    return failures != 0;
}
