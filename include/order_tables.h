/* Order tables for a query planner: check and read a query, build its table in one call or in steps, check a table, put a supplier's table on trial, look
 * it up, list it, and show two rows where an order is not held. For callers in C this page is the authority: what a function promises is said here, and
 * other pages point here.
 *
 * Words and letters
 *
 * An order is a list of 0 to 4 different columns, the most significant first, each ascending or descending. Rows stand in it when no row compares
 * below an earlier one: in the first column in which they differ, the smaller value comes first where it ascends, the larger where it descends. Ties
 * are allowed, and in the empty order all rows stand. Operators can deliver rows in the produced orders; the tested orders are only looked for; both
 * are interesting orders, the produced ones counted first. A dependency is a fix (rows alike in its left columns are alike in its right one; without
 * left columns the right one is a constant) or an equal (each row has one value in both columns). Its columns have no direction. It belongs to a set,
 * and one operator brings one set. A state is a row of the table, and a plan node carries one state's number. A run is an entry by a produced order
 * and the sets taken since; a choice is the sets in force. A set that is taken stays in force: what is held in a state is what all sets taken since
 * the entry give together, in any order and however often each is taken.
 *
 *     N columns        1 to ORDER_TABLE_MAX_COLUMNS            D dependencies   0 to ORDER_TABLE_MAX_DEPENDENCIES
 *     P produced       1 to ORDER_TABLE_MAX_PRODUCED           Q states         1 to ORDER_TABLE_MAX_STATES
 *     T tested         0 to ORDER_TABLE_MAX_TESTED             S sets           0 to ORDER_TABLE_MAX_SETS
 *
 * Handles are bytes of three kinds, each counted from 0: interesting orders below P + T, sets below S, states below Q. One never stands in for another.
 * A choice of sets is a byte too: bit i is set i.
 *
 * Layouts, a byte for each value (docs/FORMAT.md has both with an example, byte by byte)
 *
 *     query   N, P, T, S, D; a head for each item: P + T orders, then D dependencies; then four bytes for each item, in the same sequence. An order's
 *             head is its length, and each of its bytes is a column, with ORDER_TABLE_DESCENDING added where it is descending. A dependency's head is
 *             16 * kind + set: kind 0 to 3 is a fix with so many left columns, those and then the right one; kind 4 is an equal, two columns; nothing
 *             is added to these. Unused bytes are 255.
 *     table   Q, P, T, S; P starts; for each state a row of S successors; for each state two bytes of held bits, the low byte first, bit i for
 *             interesting order i, the bits from P + T on 0.
 *
 * Results
 *
 * Every function returns a refusal's number and a value in one number. A refusal of 0 is none. On refusal the value is 0, which then means neither state 0
 * nor "not held": check the refusal first. order_query_order and order_query_dependency return 64 bits, the refusal in the highest 16: split these with
 * order_query_item_refusal and order_query_item_value. All others return 32 bits, the refusal in the highest 16: split those with order_table_refusal
 * and order_table_value.
 *
 * Buffers and threads
 *
 * Buffers are lent for the call, each as a pointer and a length in bytes. Buffers of one call must not overlap. A buffer of length 0 may be any pointer but a null
 * one. Nothing is allocated, and nothing is kept between calls: what a stepped build has so far is in the scratch that its caller lends again. So all calls
 * may run at once, in any threads, each with its own buffers; bytes that calls only read may be lent to several at once while nobody writes to them.
 */
#ifndef ORDER_TABLES_H
#define ORDER_TABLES_H

#include <stddef.h>
#include <stdint.h>

/* This version of the library. */
#define ORDER_TABLES_VERSION "0.8.0"

#ifdef __cplusplus
extern "C" {
#endif

/* The most of each size. */
enum order_table_limits {
    ORDER_TABLE_MAX_COLUMNS = 12,      /* N, at least 1 */
    ORDER_TABLE_MAX_PRODUCED = 8,      /* P, at least 1 */
    ORDER_TABLE_MAX_TESTED = 8,        /* T */
    ORDER_TABLE_MAX_SETS = 8,          /* S */
    ORDER_TABLE_MAX_DEPENDENCIES = 16, /* D */
    ORDER_TABLE_MAX_STATES = 128       /* Q, at least 1 */
};

/* What is added to a column in an order's bytes. Nothing is added to one that is ascending. */
enum order_table_directions {
    ORDER_TABLE_DESCENDING = 128 /* it is descending */
};

/* Refusals, in the numbers and words of the refusal list. */
enum order_table_refusals {
    ORDER_TABLE_GRANTED = 0,   /* none */
    ORDER_TABLE_LENGTH = 1,    /* fewer bytes than the sizes take, or a total other than they imply */
    ORDER_TABLE_SIZE = 2,      /* a size outside its limits */
    ORDER_TABLE_ITEM = 3,      /* order length above 4, kind above 4, set not below S, unused byte not 255 */
    ORDER_TABLE_COLUMN = 4,    /* a column not below N; in a dependency every byte of 128 or more is one */
    ORDER_TABLE_REPEAT = 5,    /* a column twice in one order, in one direction or in both, or in one dependency */
    ORDER_TABLE_TWIN = 6,      /* two interesting orders of the same columns in the same directions */
    ORDER_TABLE_ORDERINGS = 7, /* never given: its number and word stay in the list */
    ORDER_TABLE_STATES = 8,    /* the smallest table has more than ORDER_TABLE_MAX_STATES rows */
    ORDER_TABLE_SPACE = 9,     /* scratch below ORDER_TABLE_SCRATCH bytes, or output, text or rows too short */
    ORDER_TABLE_HANDLE = 10,   /* state, produced order, set, interesting order or dependency not in the table or the query */
    ORDER_TABLE_ROW = 11,      /* a start or successor that is no state of the table, or a held bit past the interesting orders */
    ORDER_TABLE_MISMATCH = 12, /* a table with another number of produced orders, tested orders or sets than the query */
    ORDER_TABLE_ANSWER = 13,   /* a table whose answer, from some start and through some run of sets, is wrong for the query */
    ORDER_TABLE_COUNT = 14     /* the count in the scratch is 0, or above P times 2 to the S plus 1: no build was begun there */
};

/* Sizes in bytes. */
enum order_table_sizes {
    ORDER_TABLE_SCRATCH = 16384,      /* what a build, in one call or in steps, a replay, a listing or a trial of a supplier's table takes as scratch */
    ORDER_TABLE_LONGEST_QUERY = 165,  /* five sizes, and 32 items of one head and four bytes */
    ORDER_TABLE_LONGEST_TABLE = 1292, /* four sizes, 8 starts, 128 rows of 8 successors, 128 times two bytes of held bits */
    ORDER_TABLE_LISTING = 7547,       /* room for every listing */
    ORDER_TABLE_TWO_ROWS = 24         /* room for two rows of every query, of 12 columns each */
};

/* The refusal's number of a result; 0 when it is granted. */
static inline uint32_t order_table_refusal(uint32_t result) { return result >> 16; }

/* The value of a result; 0 when it is refused. */
static inline uint32_t order_table_value(uint32_t result) { return result & 0xffff; }

/* The refusal's number of an order or a dependency that was read; 0 when it is granted. */
static inline uint32_t order_query_item_refusal(uint64_t result) { return (uint32_t)(result >> 48); }

/* Its value, 48 bits; 0 when it is refused. */
static inline uint64_t order_query_item_value(uint64_t result) { return result & 0xffffffffffff; }

/* The word of a refusal's number: "granted" for 0, "unknown" for a number that is not in the list. */
static inline const char *order_table_refusal_word(uint32_t number) {
    switch (number) {
    case ORDER_TABLE_GRANTED: return "granted";
    case ORDER_TABLE_LENGTH: return "length";
    case ORDER_TABLE_SIZE: return "size";
    case ORDER_TABLE_ITEM: return "item";
    case ORDER_TABLE_COLUMN: return "column";
    case ORDER_TABLE_REPEAT: return "repeat";
    case ORDER_TABLE_TWIN: return "twin";
    case ORDER_TABLE_ORDERINGS: return "orderings";
    case ORDER_TABLE_STATES: return "states";
    case ORDER_TABLE_SPACE: return "space";
    case ORDER_TABLE_HANDLE: return "handle";
    case ORDER_TABLE_ROW: return "row";
    case ORDER_TABLE_MISMATCH: return "mismatch";
    case ORDER_TABLE_ANSWER: return "answer";
    case ORDER_TABLE_COUNT: return "count";
    default: return "unknown";
    }
}

/* The checks 1 to 6 of a query. Value: 0. Refusals, in this order: 1 for fewer than five bytes; 2; 1 if the total is not what the sizes imply; then 3, 4 and 5
 * of each item in turn; then 6. Of an order 4 and 5 look at the columns alone, whatever their directions, and 6 at both; a used byte of 255 is column 127,
 * descending, and refused with 4. A query that passes them may still be refused with 8 when it is built. */
uint32_t order_query_check(const uint8_t *query, size_t query_length);

/* Interesting order i of a query. Value: its length in the lowest byte, then its columns, a byte each, the first one lowest, and 0 above them. The
 * bytes are those of the query, with ORDER_TABLE_DESCENDING added where a column is descending. Refusals, in this order: 1 to 6; 10 when i is not below
 * P + T. */
uint64_t order_query_order(const uint8_t *query, size_t query_length, uint8_t i);

/* Dependency i of a query. Value: its set in the lowest byte, its kind in the next one, then its columns, a byte each, the first one lowest, and 0 above
 * them. Kinds are those of the layout. Refusals, in this order: 1 to 6; 10 when i is not below D. */
uint64_t order_query_dependency(const uint8_t *query, size_t query_length, uint8_t i);

/* Shows why an interesting order is not held of rows in a produced order under a choice of sets in force. Value: 1 where two rows are written, 0 where
 * there are none. The two rows stand in the produced order, obey every dependency of the sets and do not stand in the order looked for: there the
 * second one compares below the first. They are written exactly when the derivation rules do not give the order: when order_table_ask says not held
 * after that entry and those sets, or would say so in a table with no limit on its rows. Where there are none, all rows that stand in the produced
 * order and obey the sets stand in the order looked for.
 * A row is N bytes, a value for each column, 0 or 1. The two rows fill the first 2 times N bytes of the buffer, one behind the other. Which two come is not
 * fixed. The bytes past them keep their values, and all do where there are none and on refusal.
 * Refusals, in this order: 1 to 6; 10 when the produced order is not below P, the interesting order is not below P + T, or a bit of the choice that is
 * not below S is 1; 9 when the buffer is shorter than 2 times N bytes, whether there are two rows or none. 8 never comes, and no scratch is needed. */
uint32_t order_query_counterexample(const uint8_t *query, size_t query_length, uint8_t produced, uint8_t sets, uint8_t order, uint8_t *rows,
                                    size_t rows_length);

/* Builds the table of a query into the output's first bytes. Value: the table's length. Refusals, in this order: 1 to 6, 9 for scratch, 8, and 9 for
 * output.
 * It is the smallest table with the answers of the derivation rules: two pairs of a produced order and a choice of sets in force share a row exactly
 * when no order lookup after any run of further sets tells them apart, and order_table_verify accepts no table with fewer rows. Refusal 8 counts its
 * rows, and 9 for output goes by its length.
 * On refusal the output keeps its bytes, and those past the table always keep theirs. Refusals 1 to 6, and 9 for scratch, leave the scratch as it
 * is. Afterwards its first ORDER_TABLE_SCRATCH bytes are 0 in every other case; those past them keep theirs. */
uint32_t order_table_build(const uint8_t *query, size_t query_length, uint8_t *scratch, size_t scratch_length, uint8_t *output,
                           size_t output_length);

/* Begins a stepped build, for a caller who has no time for a whole build at once. P times 2 to the S calls of order_table_continue then settle one pair of
 * a produced order and a choice of sets in force each, and one call more merges the pairs and writes the table. Value: 0. Refusals, in this order: 1 to
 * 6, and 9 for scratch; each leaves the scratch as it is.
 * Afterwards the first ORDER_TABLE_SCRATCH bytes of the scratch are 0, but for a count in the first two, the low byte first, which is 1; those past them
 * keep theirs. The count is the pairs settled plus one, and shows how far the build is; 0 is no build. Beginning over an unfinished build, of this query
 * or of another, starts afresh. */
uint32_t order_table_begin(const uint8_t *query, size_t query_length, uint8_t *scratch, size_t scratch_length);

/* Continues a stepped build. Value: 0 where a pair was settled, and the table's length, which is never 0, where the build is done. Refusals, in this
 * order: 1 to 6, and 9 for scratch; 14 when the count is 0 or above P times 2 to the S plus 1; and, in the last call alone, 8 and 9 for output.
 * Lend the same query and the same scratch, and let nobody write to either from the beginning until the last call. That one then ends as
 * order_table_build does: with its result, its output and its scratch. A call but the last does the query's checks and settles one pair, however many
 * pairs there are.
 * The output may be the buffer of the table in use: in every call but the last it keeps its bytes, whatever its length, and between the calls lookups go on
 * by the old table. Once the build is done, plan nodes enter anew: a state of the old table is none of the new one's.
 * A count c from 1 to P times 2 to the S settles pair k = c - 1, which is produced order k / 2^S under choice k % 2^S: the bytes 2 + 2 * k and 3 + 2 * k
 * of the scratch become its held word, the low byte first, bit i for interesting order i, and the count becomes c + 1. All other bytes of the scratch are
 * kept.
 * A count of P times 2 to the S plus 1 makes the call the last one. It merges the held words that it finds, the bits past P + T dropped: two pairs share
 * a row exactly when their words are the same under every choice of further sets. If the query or the scratch was written to, that is all that is
 * promised of the table: it does not count as one that was built, and its answers may be wrong. Done, or refused with 8 or with 9 for output, the first
 * ORDER_TABLE_SCRATCH bytes of the scratch are 0 and those past them keep theirs. On refusal the output keeps its bytes, and those past the table
 * always keep theirs. Every other refusal leaves the scratch as it is. */
uint32_t order_table_continue(const uint8_t *query, size_t query_length, uint8_t *scratch, size_t scratch_length, uint8_t *output,
                              size_t output_length);

/* Builds as order_table_build does, then answers a list of lookups on the table, in place. A lookup is two bytes: its kind, 0 to enter by a
 * produced order, 1 to take a set, any other to ask for an interesting order, and its handle. They become the answer's: the refusal, 0 for none,
 * and the value. A granted entry or take hands its state to the lookups after it; before the first granted entry the state is 0. A last odd byte is
 * kept; on refusal all are. Value and refusals are the build's. */
uint32_t order_table_replay(const uint8_t *query, size_t query_length, uint8_t *scratch, size_t scratch_length, uint8_t *output,
                            size_t output_length, uint8_t *lookups, size_t lookups_length);

/* Checks a table's form. Value: 0. Refusals, in this order: 1 for fewer than four bytes; 2; 1 if the total is not what the sizes imply; 11. A table that was
 * built and not written to since passes. */
uint32_t order_table_check(const uint8_t *table, size_t table_length);

/* Puts a supplier's table on trial for a query. Value: 0, so that an accepted table gives the result 0. Where no refusal before 13 comes, a table is
 * accepted exactly when, from every start and through every run of sets, its answer for each interesting order is the one that the derivation
 * rules give. State numbers may differ from those of order_table_build, two rows may behave alike, and rows that no start reaches may hold
 * anything that the form allows. An accepted table has at least as many rows as the one that order_table_build writes.
 * Refusals, in this order: 1 to 6 of the query, 9 for scratch, 8 of the query; 1, 2 and 11 of the table, as order_table_check gives them; 12
 * when the table's numbers of produced orders, tested orders and sets are not the query's; 13 when some answer that a start and a run of sets
 * reach is wrong. Query and table are only read. Refusals 1 to 6 of the query, and 9, leave the scratch as it is. Afterwards its first
 * ORDER_TABLE_SCRATCH bytes are 0 in every other case, accepted or refused; those past them keep theirs. */
uint32_t order_table_verify(const uint8_t *query, size_t query_length, const uint8_t *table, size_t table_length, uint8_t *scratch,
                            size_t scratch_length);

/* The lookups take constant time and look at no more of the table than they need. Each refuses the table's sizes and length as order_table_check does, with 1,
 * 2 and 1; then with 10 a handle that is not in the table. An entry and a take refuse with 11 where the state that they read is not below Q. */

/* The state that a produced order starts in. Refusals: 1, 2, 10, 11. */
uint32_t order_table_enter(const uint8_t *table, size_t table_length, uint8_t produced);

/* The state that taking a set in a state leads to. The set stays in force: in a table that was built, the same sets lead to the same state in any
 * order and however often each is taken. Refusals: 1, 2, 10, 11. */
uint32_t order_table_take(const uint8_t *table, size_t table_length, uint8_t state, uint8_t set);

/* Whether a state holds an interesting order: 1 held, 0 not held. Refusals: 1, 2, 10. */
uint32_t order_table_ask(const uint8_t *table, size_t table_length, uint8_t state, uint8_t order);

/* A state's held bits as one word of 16 bits: bit i, worth 2 to the i, is interesting order i, 1 held, 0 not held. So one call answers for all
 * interesting orders of a state. An ask that is not refused says held exactly when its order's bit is 1. In a table that passes order_table_check
 * the bits past P + T are 0; in any other table they are as the table has them. Refusals: 1, 2, 10. */
uint32_t order_table_word(const uint8_t *table, size_t table_length, uint8_t state);

/* Where in the table a state's row of successors begins, one byte for each set. Refusals: 1, 2, 10. */
uint32_t order_table_row(const uint8_t *table, size_t table_length, uint8_t state);

/* Writes the listing of a query, or the line that says how it is refused with 1 to 6 or 8, into the text's first bytes. Value: the length of what is
 * written. The listing's first line has the count of states, which are the table's rows.
 * Refusal: 9, and then the text keeps its bytes; those past what is written always keep theirs. The checks 1 to 6 come first; then 9 for
 * scratch, which a query that they refuse does not need; then 8; and last 9 for a text shorter than what is to be written. The scratch is
 * afterwards as order_table_build leaves it. */
uint32_t order_table_list(const uint8_t *query, size_t query_length, uint8_t *scratch, size_t scratch_length, uint8_t *text, size_t text_length);

#ifdef __cplusplus
}
#endif

#endif
