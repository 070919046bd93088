/* The edges of the C interface: the most bytes that are written, a summary as long as its table, lists of length 0, places,
   retired queries, weights of a wrong size, removals down to the last triple, and intakes that were altered between calls. The
   last line says how many checks failed. */
#include <stdio.h>
#include <string.h>

#include "weak_summary.h"

#define N 12
#define SLOTS 3
#define FIVE RDFS, WS_WORDS_NUMBERS
#define NONE NULL, 0

static const uint32_t RDFS[WS_WORDS_NUMBERS] = WS_RDFS_WORDS;
static const uint32_t ONE[3] = {10, 5, 11};

/* The own roster of that triple. */
static const uint8_t ROSTER[N] = {0, 0, 0, 0, 0, WS_PROPERTY};

/* Whether something has property 5. */
static const uint32_t QUERY[WS_QUERY_NUMBERS] = {1, WS_VARIABLE, 0, 5, WS_VARIABLE, 1};

static uint32_t queries[WS_QUERIES_NUMBERS], words[WS_WORDS_NUMBERS], map[N], work[2 * N], number;
static size_t count, held, summarised, asks, place;
static int checks, failures;

static void check(int holds, const char *what) {
    checks++;
    if (!holds && failures++ < 20) {
        printf("C edges: NOT SO: %s\n", what);
    }
}

/* Whether each of so many numbers is this one. */
static int all(const uint32_t *list, size_t length, uint32_t value) {
    for (size_t i = 0; i < length; i++) {
        if (list[i] != value) {
            return 0;
        }
    }
    return 1;
}

/* Sets map, work and all that takes an answer to 9. */
static void spoil(void) {
    for (size_t i = 0; i < 2 * N; i++) {
        map[i / 2] = work[i] = 9;
    }
    count = held = summarised = asks = place = number = 9;
}

/* Whether a look up, a feed or a removal was refused so and reported the place 0; spoils the place again. */
static int refused(uint32_t status, uint32_t expected) {
    int right = status == expected && place == 0;
    place = 9;
    return right;
}

/* Writes 1,000 triples of five digits each into just this many bytes, then into one less. */
static void written(const uint32_t *by, size_t bytes) {
    static uint32_t table[3 * WS_MAX_TEXT_TRIPLES + 3];
    static uint8_t out[WS_MAX_WRITTEN + 1];
    for (size_t i = 0; i < sizeof table / sizeof *table; i++) {
        table[i] = i % 3 == 1 ? 65535 : 10000;
    }
    memset(out, 1, sizeof out);
    uint32_t status = ws_write(by, WS_WORDS_NUMBERS, WS_MAX_SIZE, table, 3 * WS_MAX_TEXT_TRIPLES, out, bytes, &count);
    check(status == WS_OK && count == bytes && out[bytes - 1] == '\n' && out[bytes] == 1, "the longest text fills its list");
    count = 9;
    status = ws_write(by, WS_WORDS_NUMBERS, WS_MAX_SIZE, table, 3 * WS_MAX_TEXT_TRIPLES, out, bytes - 1, &count);
    check(status == WS_REFUSED_SLOTS && count == 9, "one byte less is refused with 5");
    check(out[0] == 0 && memcmp(out, out + 1, bytes - 2) == 0 && out[bytes] == 1, "after 5 the list is zero");
    status = ws_write(by, WS_WORDS_NUMBERS, WS_MAX_SIZE, table, 3 * WS_MAX_TEXT_TRIPLES + 3, out, sizeof out, &count);
    check(status == WS_REFUSED_LENGTH, "1,001 triples are refused with 1");
}

static void longest_texts(void) {
    static const uint32_t high[WS_WORDS_NUMBERS] = {65531, 65532, 65533, 65534, 65535};
    written(RDFS, 22013);
    written(high, WS_MAX_WRITTEN);
}

/* A summary has at most as many triples as its table, and may have as many. */
static void longest_summaries(void) {
    static const uint32_t table[6] = {10, 5, 11, 10, 6, 5};
    static const uint8_t roster[N] = {0, 0, 0, 0, 0, WS_PROPERTY, WS_PROPERTY};
    uint32_t result[6];
    spoil();
    uint32_t status = ws_summarise(FIVE, table, 6, roster, N, result, 6, map, N, work, 2 * N, &count);
    check(status == WS_OK && count == 2 && memcmp(result, table, sizeof table) == 0, "as many triples as the table");
    status = ws_summarise_strong(FIVE, table, 6, roster, N, result, 6, map, N, work, 2 * N, &count);
    check(status == WS_OK && count == 2, "as many triples as the table, strongly");
    status = ws_summarise(FIVE, table, 6, roster, N, result, 5, map, N, work, 2 * N, &count);
    check(status == WS_REFUSED_SLOTS && all(result, 5, 0), "one slot less is refused with 5");
}

/* A table of length 0 has no triples. */
static void no_table(void) {
    uint8_t roster[N];
    memset(roster, 9, N);
    spoil();
    check(ws_own_roster(FIVE, NONE, roster, N) == WS_OK && roster[0] == 0 && memcmp(roster, roster + 1, N - 1) == 0,
          "the own roster of nothing marks nothing");
    check(ws_saturate(FIVE, NONE, roster, N, NONE, &count) == WS_OK && count == 0, "nothing saturated in no list");
    check(ws_cliques(FIVE, NONE, roster, N, map, N, work, N) == WS_OK && all(map, N, WS_ABSENT) && all(work, N, WS_ABSENT),
          "no cliques");
    spoil();
    check(ws_summarise(FIVE, NONE, roster, N, NONE, map, N, work, 2 * N, &count) == WS_OK && count == 0, "no summary");
    check(all(map, N, WS_ABSENT) && all(work, 2 * N, 0), "no node");
    spoil();
    check(ws_summarise_strong(FIVE, NONE, roster, N, NONE, map, N, work, 2 * N, &count) == WS_OK && count == 0, "nor strongly");
    check(all(map, N, WS_ABSENT) && all(work, 2 * N, 0), "no node, strongly");
    check(ws_look_up(NONE, 1, 2, 3, &number, &place) == WS_OK && number == 0 && place == 0, "nothing is found in nothing");
    number = 9;
    check(ws_ask(FIVE, NONE, map, N, QUERY, WS_QUERY_NUMBERS, &number) == WS_OK && number == 0, "nothing is known of nothing");
}

/* A result list of length 0 has no slots. */
static void no_slots(void) {
    spoil();
    check(ws_saturate(FIVE, ONE, 3, ROSTER, N, NONE, &count) == WS_REFUSED_SLOTS && count == 9, "no slots to saturate");
    check(ws_summarise(FIVE, ONE, 3, ROSTER, N, NONE, map, N, work, 2 * N, &count) == WS_REFUSED_SLOTS, "no summary slots");
    check(count == 9 && all(map, N, 0) && all(work, 2 * N, 0), "after 5 map and work are zero");
    spoil();
    check(ws_summarise_strong(FIVE, ONE, 3, ROSTER, N, NONE, map, N, work, 2 * N, &count) == WS_REFUSED_SLOTS, "nor strongly");
    check(count == 9 && all(map, N, 0) && all(work, 2 * N, 0), "after 5 map and work are zero, strongly");
    spoil();
    check(ws_open(FIVE, ROSTER, N, NONE, NONE, work, 1, map, N, &held, &summarised) == WS_REFUSED_LENGTH && held == 9,
          "without slots there are no weights");
    check(ws_open(FIVE, ROSTER, N, NONE, NONE, NONE, map, N, &held, &summarised) == WS_OK, "an intake without slots is opened");
    check(held == 0 && summarised == 0 && all(map, N, WS_ABSENT), "and holds nothing");
    uint32_t status =
        ws_feed(FIVE, ROSTER, N, NONE, NONE, NONE, map, N, work, 2 * N, 10, 5, 11, &held, &summarised, &number, &place);
    check(refused(status, WS_REFUSED_FULL) && held == 0 && number == 9 && all(work, 2 * N, 9), "and is full");
    status = ws_remove(FIVE, ROSTER, N, NONE, NONE, NONE, map, N, work, 2 * N, 10, 5, 11, &held, &summarised, &place);
    check(refused(status, WS_REFUSED_MISSING) && held == 0 && all(work, 2 * N, 9), "and nothing can leave it");
}

/* A roster that is missing, the other lists being right. */
static void no_rosters(void) {
    check(ws_own_roster(FIVE, ONE, 3, NONE) == WS_REFUSED_LENGTH, "roster of own roster");
    check(ws_saturate(FIVE, ONE, 3, NONE, NONE, &count) == WS_REFUSED_LENGTH, "roster of saturate");
    check(ws_cliques(FIVE, ONE, 3, NONE, map, N, work, N) == WS_REFUSED_LENGTH, "roster of cliques");
    check(ws_summarise(FIVE, ONE, 3, NONE, NONE, map, N, work, 2 * N, &count) == WS_REFUSED_LENGTH, "roster of summarise");
    check(ws_summarise_strong(FIVE, ONE, 3, NONE, NONE, map, N, work, 2 * N, &count) == WS_REFUSED_LENGTH, "roster, strongly");
    check(ws_open(FIVE, NONE, NONE, NONE, NONE, map, N, &held, &summarised) == WS_REFUSED_LENGTH, "roster of opening");
    uint32_t status =
        ws_feed(FIVE, NONE, NONE, NONE, NONE, map, N, work, 2 * N, 10, 5, 11, &held, &summarised, &number, &place);
    check(refused(status, WS_REFUSED_LENGTH), "roster of feeding");
    status = ws_remove(FIVE, NONE, NONE, NONE, NONE, map, N, work, 2 * N, 10, 5, 11, &held, &summarised, &place);
    check(refused(status, WS_REFUSED_LENGTH), "roster of removing");
}

/* Another list that is missing, the others being right. */
static void one_list_missing(void) {
    check(ws_open(FIVE, ROSTER, N, NONE, NONE, NONE, NONE, &held, &summarised) == WS_REFUSED_LENGTH, "map of opening");
    uint32_t status =
        ws_feed(FIVE, ROSTER, N, NONE, NONE, NONE, NONE, work, 2 * N, 10, 5, 11, &held, &summarised, &number, &place);
    check(refused(status, WS_REFUSED_LENGTH), "map of feeding");
    status = ws_feed(FIVE, ROSTER, N, NONE, NONE, NONE, map, N, NONE, 10, 5, 11, &held, &summarised, &number, &place);
    check(refused(status, WS_REFUSED_LENGTH), "work list of feeding");
    status = ws_remove(FIVE, ROSTER, N, NONE, NONE, NONE, NONE, work, 2 * N, 10, 5, 11, &held, &summarised, &place);
    check(refused(status, WS_REFUSED_LENGTH), "map of removing");
    status = ws_remove(FIVE, ROSTER, N, NONE, NONE, NONE, map, N, NONE, 10, 5, 11, &held, &summarised, &place);
    check(refused(status, WS_REFUSED_LENGTH), "work list of removing");
    status = ws_read(NONE, NONE, NONE, words, WS_WORDS_NUMBERS, &number, &count, &asks);
    check(status == WS_REFUSED_LENGTH, "queries of reading");
    status = ws_read(NONE, NONE, queries, WS_QUERIES_NUMBERS, NONE, &number, &count, &asks);
    check(status == WS_REFUSED_LENGTH, "words of reading");
}

/* Every list that must have a length is refused without one, and nothing is altered but the place of a feed or a removal. */
static void no_lists(void) {
    spoil();
    no_rosters();
    one_list_missing();
    check(ws_own_roster(NONE, NONE, NONE) == WS_REFUSED_LENGTH, "own roster");
    check(ws_saturate(NONE, NONE, NONE, NONE, &count) == WS_REFUSED_LENGTH, "saturate");
    check(ws_cliques(NONE, NONE, NONE, NONE, NONE) == WS_REFUSED_LENGTH, "cliques");
    check(ws_cliques(FIVE, ONE, 3, ROSTER, N, NONE, NONE) == WS_REFUSED_LENGTH, "clique lists");
    check(ws_summarise(NONE, NONE, NONE, NONE, NONE, NONE, &count) == WS_REFUSED_LENGTH, "summarise");
    check(ws_summarise(FIVE, ONE, 3, ROSTER, N, NONE, NONE, NONE, &count) == WS_REFUSED_LENGTH, "map and work");
    check(ws_summarise_strong(NONE, NONE, NONE, NONE, NONE, NONE, &count) == WS_REFUSED_LENGTH, "summarise strongly");
    check(ws_summarise_strong(FIVE, ONE, 3, ROSTER, N, NONE, NONE, NONE, &count) == WS_REFUSED_LENGTH, "strongly");
    check(ws_ask(NONE, NONE, NONE, NONE, &number) == WS_REFUSED_LENGTH, "ask");
    check(ws_ask(FIVE, ONE, 3, NONE, QUERY, WS_QUERY_NUMBERS, &number) == WS_REFUSED_LENGTH, "map of ask");
    check(ws_ask(FIVE, ONE, 3, map, N, NONE, &number) == WS_REFUSED_LENGTH, "query");
    check(ws_open(NONE, NONE, NONE, NONE, NONE, NONE, &held, &summarised) == WS_REFUSED_LENGTH, "opening");
    uint32_t status = ws_feed(NONE, NONE, NONE, NONE, NONE, NONE, NONE, 10, 5, 11, &held, &summarised, &number, &place);
    check(refused(status, WS_REFUSED_LENGTH), "feeding");
    status = ws_remove(NONE, NONE, NONE, NONE, NONE, NONE, NONE, 10, 5, 11, &held, &summarised, &place);
    check(refused(status, WS_REFUSED_LENGTH), "removing");
    check(ws_write(NONE, N, NONE, NONE, &count) == WS_REFUSED_LENGTH, "writing");
    check(ws_read(NONE, NONE, NONE, NONE, &number, &count, &asks) == WS_REFUSED_LENGTH, "reading");
    check(count == 9 && held == 9 && summarised == 9 && asks == 9 && number == 9, "no number is altered");
    check(all(map, N, 9) && all(work, 2 * N, 9), "no list is altered");
}

/* Reads a text into a list of length 0. */
static uint32_t read_nowhere(const char *text, size_t length) {
    spoil();
    return ws_read((const uint8_t *)text, length, NONE, queries, WS_QUERIES_NUMBERS, words, WS_WORDS_NUMBERS, &number, &count,
                   &asks);
}

static void no_text(void) {
    static uint8_t out[9];
    check(read_nowhere(NONE) == WS_REFUSED_FORM && number == 0 && count == 0 && asks == 0, "no text is in no form");
    check(read_nowhere("(site 5)\n", 9) == WS_OK && number == 5 && count == 0 && asks == 0, "a text without triples");
    check(read_nowhere("(site 5)\n", 10) == WS_REFUSED_FORM, "a closing zero is a byte too many");
    check(read_nowhere("(site 5)\n(t 1 2 3)\n", 19) == WS_REFUSED_SLOTS && number == 0 && count == 0, "no slots to read into");
    check(ws_write(FIVE, 5, NONE, out, 9, &count) == WS_OK && count == 9 && memcmp(out, "(site 5)\n", 9) == 0, "a text of none");
    count = 7;
    check(ws_write(FIVE, 5, NONE, NONE, &count) == WS_REFUSED_SLOTS && count == 7, "no bytes to write into");
}

/* Looks a triple up in a list without order: five triples before 7 3 8, that one three times, and three behind it. */
static int looked_up(uint32_t subject, uint32_t property, uint32_t object, uint32_t found, size_t at) {
    static const uint32_t list[33] = {7, 3, 8, 9, 1, 5, 5, 2, 7, 7, 3, 8, 6, 2, 7, 9, 9,
                                      9, 5, 2, 7, 7, 3, 8, 6, 2, 7, 5, 2, 7, 9, 1, 5};
    spoil();
    return ws_look_up(list, 33, subject, property, object, &number, &place) == WS_OK && number == found && place == at;
}

/* Looks 1 1 1 up in a list of zeros with a wrong length. */
static int refuses(size_t length) {
    static const uint32_t zeros[3 * WS_MAX_TRIPLES + 3];
    spoil();
    return refused(ws_look_up(zeros, length, 1, 1, 1, &number, &place), WS_REFUSED_LENGTH) && number == 9;
}

static void places(void) {
    static const uint32_t most[3 * WS_MAX_TRIPLES];
    check(looked_up(7, 3, 8, 1, 5), "neither the triple nor its repeats count for its place");
    check(looked_up(5, 2, 7, 1, 0) && looked_up(9, 9, 9, 1, 10), "the smallest and the largest of a list");
    check(looked_up(7, 3, 7, 0, 5) && looked_up(7, 3, 9, 0, 8), "the object decides");
    check(looked_up(7, 2, WS_ABSENT, 0, 5) && looked_up(7, 4, 0, 0, 8), "the property comes before the object");
    check(looked_up(0, 0, 0, 0, 0) && looked_up(WS_ABSENT, 0, 0, 0, 11), "smaller and larger than all");
    check(refuses(1) && refuses(2) && refuses(4) && refuses(5) && refuses(11), "after a wrong length the place is 0");
    check(refuses(3 * WS_MAX_TRIPLES + 3), "after too many triples the place is 0");
    check(ws_look_up(most, 3 * WS_MAX_TRIPLES, 0, 0, 1, &number, &place) == WS_OK && number == 0 && place == WS_MAX_TRIPLES,
          "the largest place");
}

/* Asks one triple by the map and a query. */
static uint32_t ask_triple(const uint32_t *triple, const uint32_t *query) {
    number = 9;
    return ws_ask(FIVE, triple, 3, map, N, query, WS_QUERY_NUMBERS, &number);
}

/* 12 comes after 3 and 6, and a pattern past the count is not looked at. */
static void retired_queries(void) {
    static const uint32_t wrong_code[3] = {10, 5, N};
    uint32_t query[WS_QUERY_NUMBERS] = {2, WS_VARIABLE, 0, 5, WS_VARIABLE, 1, WS_VARIABLE, 0, RDFS[WS_DOMAIN], WS_VARIABLE, 1};
    spoil();
    check(ask_triple(ONE, query) == WS_REFUSED_RETIRED && number == 9 && all(map, N, 9), "the second pattern is retired");
    check(ask_triple(wrong_code, query) == WS_REFUSED_CODE && number == 9, "a wrong triple comes before a retired query");
    query[0] = 1;
    check(ask_triple(ONE, query) == WS_OK && number == 1, "past the count no pattern is retired");
    query[3] = RDFS[WS_SUBCLASS];
    check(ask_triple(ONE, query) == WS_REFUSED_RETIRED && number == 9, "the only pattern is retired");
    query[2] = 8;
    check(ask_triple(ONE, query) == WS_REFUSED_QUERY && number == 9, "a wrong variable comes before it");
    query[2] = 0;
    query[4] = WS_CODE;
    query[5] = N;
    check(ask_triple(ONE, query) == WS_REFUSED_QUERY && number == 9, "a wrong code comes before it");
}

/* What is lent to a feed or a removal and may be altered by it, with numbers behind the weights for lists that are too long. */
struct intake {
    uint32_t triples[3 * SLOTS], summary[3 * SLOTS], weights[3 * SLOTS], map[N], work[2 * N], is_new;
    size_t held, summarised, place;
};

/* Opens an intake with a list of so many weights. */
static uint32_t open_intake(struct intake *x, uint32_t *list, size_t length) {
    return ws_open(FIVE, ROSTER, N, x->triples, 3 * SLOTS, x->summary, 3 * SLOTS, list, length, x->map, N, &x->held,
                   &x->summarised);
}

/* Feeds it a triple of property 5 with a list of so many weights. */
static uint32_t feed_intake(struct intake *x, uint32_t *list, size_t length, uint32_t subject, uint32_t object) {
    return ws_feed(FIVE, ROSTER, N, x->triples, 3 * SLOTS, x->summary, 3 * SLOTS, list, length, x->map, N, x->work, 2 * N,
                   subject, 5, object, &x->held, &x->summarised, &x->is_new, &x->place);
}

/* Removes a triple of property 5. */
static uint32_t remove_from(struct intake *x, uint32_t *list, size_t length, uint32_t subject, uint32_t object) {
    return ws_remove(FIVE, ROSTER, N, x->triples, 3 * SLOTS, x->summary, 3 * SLOTS, list, length, x->map, N, x->work, 2 * N,
                     subject, 5, object, &x->held, &x->summarised, &x->place);
}

static int same_but_work(const struct intake *x, const struct intake *y) {
    return memcmp(x->triples, y->triples, sizeof x->triples) == 0 && memcmp(x->summary, y->summary, sizeof x->summary) == 0 &&
           memcmp(x->weights, y->weights, sizeof x->weights) == 0 && memcmp(x->map, y->map, sizeof x->map) == 0 &&
           x->held == y->held && x->summarised == y->summarised;
}

/* Whether nothing differs but the place. */
static int same_but_place(const struct intake *x, const struct intake *y) {
    return same_but_work(x, y) && memcmp(x->work, y->work, sizeof x->work) == 0 && x->is_new == y->is_new;
}

/* Whether a feed is accepted and there is then one line, of this weight. Behind the weights there are nines. */
static int weighs(struct intake *x, uint32_t subject, uint32_t object, uint32_t weight) {
    return feed_intake(x, x->weights, SLOTS, subject, object) == WS_OK && x->summarised == 1 && x->weights[0] == weight &&
           all(x->weights + 1, SLOTS - 1, 0) && all(x->weights + SLOTS, 2 * SLOTS, 9);
}

/* An intake that holds 10 5 11 and 11 5 10, which have one line; the work list and the answers are spoilt. */
static struct intake holding_two(void) {
    struct intake x;
    memset(&x, 9, sizeof x);
    for (size_t i = 0; i < 3 * SLOTS; i++) {
        x.weights[i] = 9;
    }
    check(open_intake(&x, x.weights, SLOTS) == WS_OK && all(x.weights, SLOTS, 0), "opening zeroes the weights");
    check(weighs(&x, 10, 11, 1) && weighs(&x, 11, 10, 2), "two triples, one line");
    memset(x.work, 9, sizeof x.work);
    x.is_new = 9;
    x.place = 9;
    return x;
}

/* Each triple of a line weighs one; repeats, and triples that find no slot, weigh nothing. */
static void weights(void) {
    struct intake x = holding_two();
    check(weighs(&x, 10, 11, 2) && weighs(&x, 11, 10, 2), "a repeat weighs nothing");
    check(weighs(&x, 10, 10, 3) && weighs(&x, 10, 10, 3), "a third triple of the line, and its repeat");
    check(x.summary[0] == 10 && x.summary[1] == 5 && x.summary[2] == 10, "the line of all three");
    struct intake before = x;
    check(feed_intake(&x, x.weights, SLOTS, 11, 11) == WS_REFUSED_FULL && same_but_place(&x, &before), "7 weighs nothing");
    check(weighs(&x, 11, 10, 3), "nor does a repeat that is fed to a full intake");
    check(ws_open(FIVE, ROSTER, N, x.triples, 8, x.summary, 7, x.weights, 2, x.map, N, &x.held, &x.summarised) == WS_OK,
          "lists of 8 and of 7 numbers have two slots");
}

/* Weights that are missing, one too few, one too many, or as many as a triple list has numbers. */
static void wrong_weights(void) {
    static const size_t lengths[] = {0, SLOTS - 1, SLOTS + 1, 3 * SLOTS};
    for (size_t i = 0; i < sizeof lengths / sizeof *lengths; i++) {
        struct intake x = holding_two(), before = x;
        uint32_t *list = lengths[i] == 0 ? NULL : x.weights;
        check(open_intake(&x, list, lengths[i]) == WS_REFUSED_LENGTH, "opening refuses weights of a wrong size");
        check(same_but_place(&x, &before) && x.place == 9, "and alters nothing");
        check(feed_intake(&x, list, lengths[i], 10, 10) == WS_REFUSED_LENGTH, "feeding refuses weights of a wrong size");
        check(same_but_place(&x, &before) && x.place == 0, "and alters nothing but the place");
        x.place = 9;
        check(remove_from(&x, list, lengths[i], 10, 11) == WS_REFUSED_LENGTH, "removing refuses weights of a wrong size");
        check(same_but_place(&x, &before) && x.place == 0, "and alters nothing but the place");
    }
}

/* Whether a removal is accepted at this place, so many triples are left, with one line of this weight, and the work list is
   zero. Behind the weights there are nines. */
static int lightens(struct intake *x, uint32_t subject, uint32_t object, size_t at, uint32_t weight) {
    memset(x->work, 9, sizeof x->work);
    x->place = 9;
    return remove_from(x, x->weights, SLOTS, subject, object) == WS_OK && x->place == at && x->held == weight &&
           x->summarised == 1 && x->weights[0] == weight && all(x->weights + 1, SLOTS - 1, 0) &&
           all(x->weights + SLOTS, 2 * SLOTS, 9) && all(x->work, 2 * N, 0);
}

/* Whether a removal is refused with 9 and alters nothing, not even the work list, but the place, which is 0. */
static int misses(struct intake *x, uint32_t subject, uint32_t object) {
    struct intake before;
    memset(x->work, 9, sizeof x->work);
    x->place = 9;
    before = *x;
    return remove_from(x, x->weights, SLOTS, subject, object) == WS_REFUSED_MISSING && same_but_place(x, &before) &&
           x->place == 0;
}

/* From a full intake down to an empty one. The slot of 10 5 10, whose ends the others keep, takes 11 5 11. */
static void removals(void) {
    struct intake x = holding_two();
    check(misses(&x, 10, 10) && misses(&x, 11, 11), "what was not fed cannot leave");
    check(weighs(&x, 10, 10, 3) && feed_intake(&x, x.weights, SLOTS, 11, 11) == WS_REFUSED_FULL, "three triples, no slot left");
    check(misses(&x, 11, 11), "in a full intake too a triple that is not held is refused with 9");
    check(lightens(&x, 10, 10, 0, 2) && misses(&x, 10, 10), "one leaves, once");
    check(weighs(&x, 11, 11, 3) && x.place == 2, "and another takes its slot");
    check(lightens(&x, 11, 11, 2, 2), "which leaves again");
    check(lightens(&x, 11, 10, 1, 1) && misses(&x, 11, 10), "the class of 10 and 11 falls apart");
    check(x.summary[0] == 10 && x.summary[2] == 11 && x.map[10] == 10 && x.map[11] == 11, "into two");
    check(all(x.triples + 3, 3 * SLOTS - 3, 0) && all(x.summary + 3, 3 * SLOTS - 3, 0), "behind the last triple all is zero");
    check(remove_from(&x, x.weights, SLOTS, 10, 11) == WS_OK && x.held == 0 && x.summarised == 0, "the last triple leaves");
    check(all(x.triples, 3 * SLOTS, 0) && all(x.summary, 3 * SLOTS, 0) && all(x.weights, SLOTS, 0), "the lists are zero");
    check(all(x.map, N, WS_ABSENT) && misses(&x, 10, 11), "and no code is a node");
}

static uint32_t random_below(uint32_t bound) {
    static uint64_t seed = 1;
    seed = seed * UINT64_C(6364136223846793005) + UINT64_C(1442695040888963407);
    return (uint32_t)(seed >> 33) % bound;
}

/* An intake in which every number is any small one, sometimes the absent mark; of the weights, sometimes all. */
static struct intake altered(void) {
    struct intake x;
    uint32_t highest = random_below(3);
    for (size_t i = 0; i < 3 * SLOTS; i++) {
        x.triples[i] = i % 3 == 1 ? 5 : 9 + random_below(4);
        x.summary[i] = i % 3 == 1 ? 5 : 9 + random_below(4);
        x.weights[i] = highest == 0 || (highest == 1 && random_below(2) == 0) ? WS_ABSENT : random_below(4);
    }
    for (size_t i = 0; i < N; i++) {
        x.map[i] = random_below(4) == 0 ? WS_ABSENT : 9 + random_below(4);
        x.work[i] = x.work[N + i] = 1 + random_below(9);
    }
    x.is_new = 9;
    x.place = 9;
    x.held = random_below(SLOTS + 2);
    x.summarised = random_below(SLOTS + 2);
    return x;
}

/* What holds after a feed of an intake in any state; gives the answer: 0 not new, 1 new, 7. */
static uint32_t feed_altered(struct intake x, uint32_t subject, uint32_t object) {
    struct intake before = x;
    uint32_t status = feed_intake(&x, x.weights, SLOTS, subject, object);
    check(memcmp(x.weights + SLOTS, before.weights + SLOTS, 2 * SLOTS * sizeof *x.weights) == 0,
          "nothing is written behind the weights");
    if (status == WS_REFUSED_FULL) {
        check(same_but_place(&x, &before) && x.place == 0,
              "after 7 nothing is altered, the work list included, and the place is 0");
        return status;
    }
    check(status == WS_OK && all(x.work, 2 * N, 0), "after another answer the work list is zero");
    check(x.place <= before.held, "and the place is at most the number held before");
    check(x.is_new == 1 || (x.is_new == 0 && same_but_work(&x, &before)), "after \"not new\" all else is as it was");
    check(x.is_new != 1 || (x.held == before.held + 1 && x.held <= SLOTS && x.summarised <= SLOTS),
          "after \"new\" one more is held, and the counts fit");
    return x.is_new;
}

/* What holds after a removal from an intake in any state; gives the answer: 0 removed, 9. */
static uint32_t remove_altered(struct intake x, uint32_t subject, uint32_t object) {
    struct intake before = x;
    uint32_t status = remove_from(&x, x.weights, SLOTS, subject, object);
    check(memcmp(x.weights + SLOTS, before.weights + SLOTS, 2 * SLOTS * sizeof *x.weights) == 0,
          "nothing is written behind the weights");
    if (status == WS_REFUSED_MISSING) {
        check(same_but_place(&x, &before) && x.place == 0,
              "after 9 nothing is altered, the work list included, and the place is 0");
        return status;
    }
    check(status == WS_OK && all(x.work, 2 * N, 0), "after another answer the work list is zero");
    check(x.place <= before.held, "and the place is at most the number held before");
    check(x.held + 1 == before.held && x.held <= SLOTS && x.summarised <= SLOTS, "one less is held, and the counts fit");
    return status;
}

static void altered_intakes(void) {
    size_t answers[8] = {0}, removed[10] = {0};
    for (int k = 0; k < 10000; k++) {
        answers[feed_altered(altered(), 10, 11) % 8]++;
        removed[remove_altered(altered(), 10, 11) % 10]++;
    }
    check(answers[0] > 100 && answers[1] > 100 && answers[7] > 100, "each answer is given");
    check(removed[0] > 100 && removed[9] > 100, "each answer to a removal is given");
}

/* Weights that were all set to the highest number, in an intake that is right in all else. Fed are a repeat, a triple whose
   line is there, and one that brings a node. Opened again the intake is right. */
static void highest_weights(void) {
    static const uint32_t ends[3][2] = {{10, 11}, {10, 10}, {9, 10}};
    for (size_t k = 0; k < 3; k++) {
        struct intake x = holding_two();
        memset(x.weights, 255, sizeof x.weights);
        feed_altered(x, ends[k][0], ends[k][1]);
        check(open_intake(&x, x.weights, SLOTS) == WS_OK && all(x.weights, SLOTS, 0), "opening zeroes the highest weights");
        check(feed_intake(&x, x.weights, SLOTS, 10, 11) == WS_OK && x.weights[0] == 1, "and the first triple weighs one");
    }
}

/* Weights that were all set to zero or to the highest number, in an intake that is right in all else. Removed are a triple
   whose ends the others keep and one that parts a class. */
static void wrong_numbers(void) {
    static const int bytes[2] = {0, 255};
    for (size_t k = 0; k < 2; k++) {
        struct intake x = holding_two();
        check(weighs(&x, 10, 10, 3), "a third triple of the line");
        memset(x.weights, bytes[k], sizeof x.weights);
        check(remove_altered(x, 10, 10) == WS_OK && remove_altered(x, 11, 10) == WS_OK, "removed by any weights");
        check(open_intake(&x, x.weights, SLOTS) == WS_OK && all(x.weights, SLOTS, 0), "opening zeroes the weights again");
    }
}

int main(void) {
    longest_texts();
    longest_summaries();
    no_table();
    no_slots();
    no_lists();
    no_text();
    places();
    retired_queries();
    weights();
    wrong_weights();
    removals();
    altered_intakes();
    highest_weights();
    wrong_numbers();
    printf("C edges: %d checks, %d failed\n", checks, failures);
    return failures != 0;
}
