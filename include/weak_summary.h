/*
 * The weak summary of a site graph: the calls of the proved engine, for C.
 *
 * Link with libweak_summary.a (rt lib in crates/weak_summary writes it to that crate's out/). x86-64 Linux. Of other libraries
 * it uses only memcpy and memset.
 *
 * Each name begins with ws, for weak summary.
 *
 * Terms
 *   A code is a uint32_t below N, the site size, 5 to 65,536.
 *   The words are five different codes: those for type, subclass, subproperty, domain and range, in this order. They are
 *   reserved and stand only as a property. Every other code, 0 to 4 too where they are no words, may be subject, object or
 *   property; a triple whose property is no word is a data triple.
 *   A triple is three codes: subject, property, object. A table is a list of triples, three numbers each, at most
 *   WS_MAX_TRIPLES; repeats count once.
 *   A roster has one byte for each code: 0 unmarked, 1 class, 2 property, 3 both; the words are unmarked. N is its length. It
 *   covers a table if it marks each of these roles, and may mark more:
 *     property of the triple    marked as class     marked as property
 *     type                      object
 *     subclass                  subject, object
 *     subproperty                                   subject, object
 *     domain, range             object              subject
 *     no word                                       the property
 *   A node is a code that is subject or object of a triple. A marked node represents itself; only unmarked nodes are put
 *   together.
 *   Slots are a list's length divided by 3, rounded down.
 *
 * What a controller does
 *   1  ws_own_roster of its table, or a roster of its own that covers the table.
 *   2  ws_saturate the table with that roster. The list has to be long enough for what the rules give; 5 says that it is not.
 *   3  ws_summarise the 3 * *count numbers of the saturation with that roster, into as many numbers: a summary never has more
 *      triples than its table. This gives the summary and its map, which belong together.
 *   4  ws_ask the summary by its map. "none" means that the saturated table has no match; see at ws_ask what that needs.
 *   The words are the same in each call.
 *
 * Lists
 *   A list is a pointer and a length in elements, not in bytes; the bytes of a text are counted without a closing zero.
 *   Where the length is 0 the pointer may be NULL; nothing is read or written through it. No other pointer is NULL.
 *   The lists that a call may alter overlap with no other argument. The engine keeps no pointer and allocates nothing.
 *
 * Threads
 *   The library has no variables of its own. Calls may run at the same time, where nothing that one of them may alter is lent
 *   to another.
 *
 * Answers
 *   Each call returns WS_OK or the number of a refusal. The checks run in the order that stands at the call, each over all
 *   its input before the next.
 *   After 1, 10, 2, 3, 4, 6, 12, 7 and 9 nothing that was lent is altered, but for *place.
 *   Each call that takes words refuses a list of other than WS_WORDS_NUMBERS numbers with 1, before all else, and then wrong
 *   words with 10, straight after 1.
 *   After 5 and 8 the lists are zero, as said at each call; the words of ws_read are 0 to 4.
 *   A number that is lent to take an answer (count, found, maybe, is_new) is altered by accepted calls only; ws_read says
 *   what it does with its numbers. Only the place of ws_look_up, ws_feed and ws_remove is written by every call: it is 0 after
 *   each refusal, also after 1 for words that are not five.
 *   Result triples are in rising order of subject, property, object, without repeats; the rest of the list is zero.
 */
#ifndef WEAK_SUMMARY_H
#define WEAK_SUMMARY_H

#include <stddef.h>
#include <stdint.h>

#ifdef __cplusplus
extern "C" {
#endif

/* The entry of a code that has none: in a map a code that is no node, in a clique list a code without that clique. */
#define WS_ABSENT UINT32_C(4294967295)

#define WS_MIN_SIZE 5           /* the smallest N */
#define WS_MAX_SIZE 65536       /* the largest N */
#define WS_MAX_TRIPLES 1048576  /* the most triples of a table, and the most slots of an intake */
#define WS_MAX_TEXT_TRIPLES 1000 /* the most triples of a text */
#define WS_MAX_ASKS 16          /* the most queries of a text */
#define WS_MAX_PATTERNS 8       /* the most patterns of a query */
#define WS_MAX_WRITTEN 22051    /* the most bytes that ws_write writes */

/* The numbers of a list of words, of a flat query, and of the sixteen flat queries of a text. */
#define WS_WORDS_NUMBERS 5
#define WS_QUERY_NUMBERS 41
#define WS_QUERIES_NUMBERS 656

/* Places in a list of words. */
#define WS_TYPE 0
#define WS_SUBCLASS 1
#define WS_SUBPROPERTY 2
#define WS_DOMAIN 3
#define WS_RANGE 4

/* The words 0 to 4, as the initial value of a list. They hold where a text has no line of words. */
#define WS_RDFS_WORDS {0, 1, 2, 3, 4}

/* Roster marks. */
#define WS_UNMARKED 0
#define WS_CLASS 1
#define WS_PROPERTY 2
#define WS_BOTH 3

/* Kinds of an end in a flat query. */
#define WS_VARIABLE 0
#define WS_CODE 1

/*
 * The stack that a call uses, in bytes, with its arguments. Measured and rounded up, not proved: bindings/c/stack.c does it,
 * with 65,536 codes and 1,048,576 triples, with the numbers and the queries that go deepest. A dynamic linker that binds
 * memcpy and memset when they are first called uses more at that time.
 */
#define WS_STACK_ASK 24576     /* ws_ask */
#define WS_STACK_READ 10240    /* ws_read */
#define WS_STACK_SORTING 8192  /* ws_saturate, ws_summarise, ws_summarise_strong, ws_feed, ws_remove */
#define WS_STACK_OTHERS 512    /* each other call */

/* Answers. */
#define WS_OK 0
#define WS_REFUSED_LENGTH 1 /* a list has a wrong length, or N is out of range */
#define WS_REFUSED_ROSTER 2 /* a roster value over 3, or a word marked */
#define WS_REFUSED_CODE 3   /* a code of a triple not below N, or a word as subject or object */
#define WS_REFUSED_COVER 4  /* the roster does not mark each role in the table, or in the triple fed or removed */
#define WS_REFUSED_SLOTS 5  /* more result triples than slots, or more bytes than the list has */
#define WS_REFUSED_QUERY 6  /* a query with a wrong count, variable, kind or code */
#define WS_REFUSED_FULL 7   /* intake: the triple is new and every slot holds one */
#define WS_REFUSED_FORM 8   /* the text is not in the site form */
#define WS_REFUSED_MISSING 9 /* intake: the triple to remove is not held */
#define WS_REFUSED_WORDS 10 /* two words are equal, or one is not below N */
#define WS_REFUSED_RETIRED 12 /* a counted pattern's property is subclass, subproperty, domain or range */

/*
 * Own roster: the smallest roster that covers the table.
 *   roster  N bytes, each written.
 * Refusals, in order
 *   1  the words not five; N out of range; the table not a multiple of 3, or over WS_MAX_TRIPLES triples
 *   10, 3
 * They alter nothing.
 */
uint32_t ws_own_roster(const uint32_t *words, size_t words_length, const uint32_t *table, size_t table_length,
                       uint8_t *roster, size_t roster_length);

/*
 * Saturate: the least set of triples that contains the table and is closed under the ten rules: rdfs2, 3, 5, 7, 9, 11, and
 *   a subproperty b, b domain c  give  a domain c        a domain c, c subclass d  give  a domain d
 *   a subproperty b, b range c   give  a range c         a range c, c subclass d   give  a range d
 *   result  any length; takes the triples, the rest is zero.
 *   *count  the number of triples. They may be more than WS_MAX_TRIPLES, and are then no table for another call.
 * Refusals, in order
 *   1  the words not five; N out of range; the table not a multiple of 3, or over WS_MAX_TRIPLES triples
 *   10, 2, 3, 4
 *   5  the saturation has more triples than the result has slots: the result is zero
 * The others alter nothing.
 */
uint32_t ws_saturate(const uint32_t *words, size_t words_length, const uint32_t *table, size_t table_length,
                     const uint8_t *roster, size_t roster_length, uint32_t *result, size_t result_length,
                     size_t *count);

/*
 * Cliques: for each code taken as a property, the smallest property in its source clique and in its target clique, or
 * WS_ABSENT where it has none.
 *   sources, targets  N numbers each, all written.
 * Refusals, in order
 *   1  the words not five; N out of range; the table not a multiple of 3, or over WS_MAX_TRIPLES triples; a clique list not
 *      of N numbers
 *   10, 2, 3, 4
 * They alter nothing.
 */
uint32_t ws_cliques(const uint32_t *words, size_t words_length, const uint32_t *table, size_t table_length,
                    const uint8_t *roster, size_t roster_length, uint32_t *sources, size_t sources_length,
                    uint32_t *targets, size_t targets_length);

/*
 * Summarise, weakly: the table's triples with each subject and object replaced by its representative.
 *   result  any length; takes the summary, the rest is zero. As many numbers as the table has are always enough. For a list
 *           that is cut at build time, ws_slots_bound in weak_summary_slots.h gives a number of slots that is enough as well.
 *   map     N numbers: each node's representative, WS_ABSENT for a code that is no node, so for each word.
 *   work    2 * N numbers with any content; zero afterwards.
 *   *count  the number of triples of the summary.
 * Refusals, in order
 *   1  the words not five; N out of range; the table not a multiple of 3, or over WS_MAX_TRIPLES triples; map or work of
 *      another length
 *   10, 2, 3, 4
 *   5  the summary has more triples than the result has slots: result, map and work are zero
 * The others alter nothing.
 * A table is saturated if it holds all that the ten rules give from it, as the triples that ws_saturate leaves do. Its
 * summary is at rest: ws_saturate and ws_summarise of the summary's 3 * *count numbers (not the zeros behind them), with the
 * same words and roster and with lists that are long enough for it, give the same triples. The second map has the summary's
 * nodes only, each its own representative. So keep the first map: a code that another represents is absent in the second, and
 * asked by the second map a counted pattern with it has no match.
 */
uint32_t ws_summarise(const uint32_t *words, size_t words_length, const uint32_t *table, size_t table_length,
                      const uint8_t *roster, size_t roster_length, uint32_t *result, size_t result_length,
                      uint32_t *map, size_t map_length, uint32_t *work, size_t work_length, size_t *count);

/*
 * Summarise strongly: as ws_summarise, but nodes are put together only if they have the same source clique and the same
 * target clique, none counting as a value. Lists, refusals and what they leave are those of ws_summarise, but it may need more
 * slots than ws_slots_bound gives. The strong summary of a saturated table is at rest too, when it is saturated or strongly
 * summarised again.
 */
uint32_t ws_summarise_strong(const uint32_t *words, size_t words_length, const uint32_t *table, size_t table_length,
                             const uint8_t *roster, size_t roster_length, uint32_t *result, size_t result_length,
                             uint32_t *map, size_t map_length, uint32_t *work, size_t work_length, size_t *count);

/*
 * Look up: whether a triple is in a list, in any order, and where it belongs.
 *   *found  1 if it is, else 0.
 *   *place  how many triples of the list come before it; 0 after a refusal. The order is that of subject, property, object.
 *           Each repeat of a triple before it counts, the triple itself and its repeats do not. It is given whether the
 *           triple is in the list or not; in a rising list without repeats it is where the triple stands or would stand.
 * Refusals
 *   1  the list not a multiple of 3, or over WS_MAX_TRIPLES triples
 * After it nothing is altered but *place.
 */
uint32_t ws_look_up(const uint32_t *list, size_t list_length, uint32_t subject, uint32_t property, uint32_t object,
                    uint32_t *found, size_t *place);

/*
 * Ask: whether some choice of nodes for the variables puts every pattern of the query in the table.
 *   table   any triples below N, in any order; N, for the words too, is the map's length.
 *   map     a code at an end of a pattern stands for its entry here. A property is taken as it is.
 *   query   a flat query of WS_QUERY_NUMBERS numbers: the count of patterns, then five numbers for each of eight patterns:
 *           subject kind (WS_VARIABLE or WS_CODE), subject value, property, object kind, object value.
 *           Patterns past the count are not looked at. Of the words only type may be a property.
 *   *maybe  1 for "maybe", 0 for "none". On a table without triples it is 0.
 * Refusals, in order
 *   1  the words not five; the query not of WS_QUERY_NUMBERS numbers; N out of range; the table not a multiple of 3, or over
 *      WS_MAX_TRIPLES triples
 *   10, 3
 *   6  a count of 0 or over 8; in a counted pattern a kind over 1, a variable over 7, or a code or property not below N
 *   12 a counted pattern's property is subclass, subproperty, domain or range
 * They alter nothing.
 * Time, measured and not proved, with the engine as an older kit built it: a query whose variables form no cycle takes about
 * patterns * triples steps where N is at most 4,096, and mostly so beyond. With a cycle it may take nodes * patterns * triples,
 * and the square of the nodes where cycles hang together so that two variables must be fixed, one within the other. On 2,048 triples of 512 codes no query that was
 * tried took more than 20 ms, but for two cycles joined by a path, which took 0.2 s. A query that is easy in its written
 * order takes the time of a search in that order: below 1 us on a summary of 256 triples.
 * "none" is safe only on the summary of a saturated table, asked by the map that came with that summary: then the saturated
 * table has no match, which is a choice of nodes that puts every pattern, its codes as they are, in it.
 *   The plain summary, of a table that was not saturated, lacks what the rules give. Of the six triples
 *     5 subproperty 7     6 subproperty 7     7 domain 8     8 subclass 9     10 5 12     11 6 13
 *   it says "none" to ((v 0) 7 (v 1)), though 10 7 12 is in their saturation. An intake's summary is a plain one.
 *   By another map a code stands for another node, or for none. In the summary of that saturation 10 represents 11; by the
 *   plain summary's map, in which 11 is itself, it says "none" to ((c 11) 6 (v 0)), though 11 6 13 is one of the six.
 */
uint32_t ws_ask(const uint32_t *words, size_t words_length, const uint32_t *table, size_t table_length,
                const uint32_t *map, size_t map_length, const uint32_t *query, size_t query_length, uint32_t *maybe);

/*
 * Open an intake: it holds no triple.
 *   triples, summary  of equal slots, at most WS_MAX_TRIPLES; zero afterwards.
 *   weights           as many numbers as there are slots; zero afterwards.
 *   map               N numbers; all WS_ABSENT afterwards.
 *   *held, *summarised  0 afterwards.
 * Refusals, in order
 *   1  the words not five; N out of range; the map not of N numbers; triples and summary of unequal slots, or over
 *      WS_MAX_TRIPLES slots; weights of more or fewer numbers than slots
 *   10, 2
 * They alter nothing.
 */
uint32_t ws_open(const uint32_t *words, size_t words_length, const uint8_t *roster, size_t roster_length,
                 uint32_t *triples, size_t triples_length, uint32_t *summary, size_t summary_length, uint32_t *weights,
                 size_t weights_length, uint32_t *map, size_t map_length, size_t *held, size_t *summarised);

/*
 * Feed an intake one triple. Lend the words and the roster of the opening, and the lists and counts as the call before left
 * them.
 *   triples      the triples held: the distinct ones fed so far and not removed since, in rising order, zero beyond.
 *   summary      their summary, zero beyond.
 *   weights      one number for each slot: for each triple of the summary, in the same order, how many of the triples held
 *                become it when their subject and object are replaced by their representatives, which is at least 1; zero
 *                beyond. They add up to *held, which is how many of the triples fed since the opening were new, less those
 *                removed.
 *   map          their map.
 *   work         2 * N numbers with any content; zero after an accepted feed, new or not.
 *   *held        the number of triples held.
 *   *summarised  the number of triples of their summary.
 *   *is_new      1 if the triple was new, 0 if it was held already; then the work list is zero, and the other lists and both
 *                counts stay as they are.
 *   *place       how many of the triples held before the call come before it; 0 after a refusal. After
 *                an accepted feed, new or not, the triple stands there in triples.
 * Refusals, in order
 *   1  the words not five; N out of range; triples, summary, weights, map or work of a wrong length
 *   10, 2
 *   3  of the fed triple
 *   4  of the fed triple
 *   7  the triple is new and every slot holds one; a triple that is held passes
 * They alter nothing but *place, not even the work list.
 * If lists or counts were altered between calls, or the words or the roster are others than at opening, the call still ends
 * safely, and this holds: refusals 1, 10, 2, 3 and 4 are as above; after 7 nothing is altered but *place, which is 0; after
 * "not new" the work list is zero, and the other lists and both counts stay as they are; after "new" the work list is zero,
 * *held is one more, and *held and *summarised are at most the slots; *place is at most what *held was before the call.
 * Open are which of "new", "not new" and 7 is answered, what *place is after "new" and "not new" and, after "new", what
 * triples, summary, weights and map hold and what *summarised is. Counts that were altered stay so after 7 and "not new":
 * compare them with the slots before they are used as lengths.
 */
uint32_t ws_feed(const uint32_t *words, size_t words_length, const uint8_t *roster, size_t roster_length,
                 uint32_t *triples, size_t triples_length, uint32_t *summary, size_t summary_length, uint32_t *weights,
                 size_t weights_length, uint32_t *map, size_t map_length, uint32_t *work, size_t work_length,
                 uint32_t subject, uint32_t property, uint32_t object, size_t *held, size_t *summarised,
                 uint32_t *is_new, size_t *place);

/*
 * Remove one triple from an intake. Lend what a feed is lent.
 *   triples, summary, weights, map, *held, *summarised
 *                those of the other triples held, as if this one had never been fed. Classes may fall apart; a node that no
 *                other triple has is absent from the map; a node that is left with types only is put with the others that have
 *                types only. Without any triple all is as after the opening. A later triple takes the slot set free.
 *   work         2 * N numbers with any content; zero after an accepted removal.
 *   *place       how many of the triples held before the call come before it, which is where it stood in triples; 0 after a
 *                refusal.
 * Refusals, in order
 *   1  the words not five; N out of range; triples, summary, weights, map or work of a wrong length
 *   10, 2
 *   3  of the triple to remove
 *   4  of the triple to remove
 *   9  the triple is not held
 * They alter nothing but *place, not even the work list.
 * If lists or counts were altered between calls, or the words or the roster are others than at opening, the call still ends
 * safely, and this holds: refusals 1, 10, 2, 3 and 4 are as above; after 9 nothing is altered but *place, which is 0; after
 * WS_OK the work list is zero, *held is one less, *held and *summarised are at most the slots, and *place is at most *held.
 * Open are which of WS_OK and 9 is answered and, after WS_OK, what *place is, what triples, summary,
 * weights and map hold and what *summarised is. Counts that were altered stay so after 9: compare them with the slots before
 * they are used as lengths.
 * Time, measured and not proved: where other triples held keep both ends of this one, the call takes at most a pass over the
 * triples for each end; else it makes the summary anew, as a feed does whose line is not there yet. An unmarked end of a data triple is kept
 * by a triple with the same property and that end at the same side, any other end by a triple with it as subject or object.
 */
uint32_t ws_remove(const uint32_t *words, size_t words_length, const uint8_t *roster, size_t roster_length,
                   uint32_t *triples, size_t triples_length, uint32_t *summary, size_t summary_length, uint32_t *weights,
                   size_t weights_length, uint32_t *map, size_t map_length, uint32_t *work, size_t work_length,
                   uint32_t subject, uint32_t property, uint32_t object, size_t *held, size_t *summarised,
                   size_t *place);

/*
 * Write the site form: the line (site N), then, unless the words are 0, 1, 2, 3, 4 in this sequence, the line
 * (words A B C D E), then a line (t S P O) for each triple of the table in its order.
 *   n       the site size N.
 *   out     any length; takes the bytes, the rest is zero. WS_MAX_WRITTEN bytes are always enough: 13 for (site 65536), 38 for
 *           the words, 22 for each of 1,000 triples. No closing zero is written.
 *   *count  the number of bytes.
 * Refusals, in order
 *   1  the words not five; n out of range; the table not a multiple of 3, or over WS_MAX_TEXT_TRIPLES triples
 *   10, 3
 *   5  more bytes than out has: out is zero
 * The others alter nothing.
 */
uint32_t ws_write(const uint32_t *words, size_t words_length, uint32_t n, const uint32_t *table, size_t table_length,
                  uint8_t *out, size_t out_length, size_t *count);

/*
 * Read the site form. LF is byte 10, each space is one byte 32, and nothing else stands before, between or behind the lines:
 *   text     SITE, WORDS or nothing, 0 to 1,000 TRIPLE, 0 to 16 ASK
 *   SITE     (site NUMBER)LF
 *   WORDS    (words NUMBER NUMBER NUMBER NUMBER NUMBER)LF
 *   TRIPLE   (t NUMBER NUMBER NUMBER)LF
 *   ASK      (ask PATTERN)LF, with one to eight patterns and a space before each
 *   PATTERN  (END NUMBER END)
 *   END      (v NUMBER), a variable, or (c NUMBER), a code
 *   NUMBER   0 to 4294967295 in base ten, without leading zeros
 * Lent are
 *   text     its bytes, without the closing zero of a C string.
 *   list     any length; takes the triples as they stand in the text, repeats too; the rest is zero.
 *   queries  WS_QUERIES_NUMBERS numbers: sixteen flat queries. Those past *asks, and patterns past a count, are zero.
 *   words    WS_WORDS_NUMBERS numbers: the words as they stand in the text, 0 to 4 where it has no such line.
 *   *n       N as it stands in the text; any number of 32 bits.
 *   *count   the number of triples.
 *   *asks    the number of queries.
 * Reading judges the form only: N, words, codes and variables may be any numbers of 32 bits. A query of this form is read
 * also where ws_ask refuses it with 6 or 12.
 * Refusals, in order
 *   1  queries not of WS_QUERIES_NUMBERS numbers, or words not of WS_WORDS_NUMBERS: nothing is altered
 *   8  the text is not in the site form: list and queries are zero, words are 0 to 4, *n, *count and *asks are 0
 *   5  more triples than the list has slots: the same
 */
uint32_t ws_read(const uint8_t *text, size_t text_length, uint32_t *list, size_t list_length, uint32_t *queries,
                 size_t queries_length, uint32_t *words, size_t words_length, uint32_t *n, size_t *count,
                 size_t *asks);

#ifdef __cplusplus
}
#endif

#endif
