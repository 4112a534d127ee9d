/* A planner's use of order tables: build the table of a query once, then carry one state per plan node. Sets stay in force, so they may be taken in
 * any order. One word says all that a state holds; an ask is for one order.
 * The query is that of examples/first.query: columns a, b, c; orders (a) and (b,a) can be produced, (a,b) and (c) are only looked for;
 * set 0 brings a -> b and set 1 brings b = c. */
#include <stdio.h>
#include <stdlib.h>

#include "order_tables.h"

static const uint8_t query[35] = {
    3, 2, 2, 2, 2,       /* sizes N, P, T, S, D */
    1, 2, 2, 1, 16, 65,  /* heads of the six items */
    0, 255, 255, 255,    /* order 0, produced: (a) */
    1, 0,   255, 255,    /* order 1, produced: (b,a) */
    0, 1,   255, 255,    /* order 2, tested: (a,b) */
    2, 255, 255, 255,    /* order 3, tested: (c) */
    0, 1,   255, 255,    /* set 0: a -> b */
    1, 2,   255, 255,    /* set 1: b = c */
};
static const char *const orders[4] = {"(a)", "(b,a)", "(a,b)", "(c)"};

static uint8_t scratch[ORDER_TABLE_SCRATCH];
static uint8_t output[ORDER_TABLE_LONGEST_TABLE];

/* The value of a result. A refusal ends the program: its value, 0, is no state and no answer. */
static uint32_t granted(uint32_t result) {
    uint32_t refusal = order_table_refusal(result);
    if (refusal != ORDER_TABLE_GRANTED) {
        fprintf(stderr, "refused %u, %s\n", refusal, order_table_refusal_word(refusal));
        exit(EXIT_FAILURE);
    }
    return order_table_value(result);
}

/* Prints which interesting orders a state holds: one word has them all. */
static void print_held(const char *what, size_t length, uint8_t state) {
    uint32_t word = granted(order_table_word(output, length, state));
    printf("%s: state %u holds", what, state);
    for (uint8_t order = 0; order < 4; order++) {
        if ((word >> order) & 1) {
            printf(" %s", orders[order]);
        }
    }
    printf("\n");
}

int main(void) {
    size_t length = granted(order_table_build(query, sizeof query, scratch, sizeof scratch, output, sizeof output));
    printf("table of %zu bytes, check %u\n", length, order_table_refusal(order_table_check(output, length)));

    uint8_t scan = (uint8_t)granted(order_table_enter(output, length, 0));
    print_held("scan in (a)", length, scan);
    uint8_t selected = (uint8_t)granted(order_table_take(output, length, scan, 0));
    print_held("after set 0", length, selected);
    const char *sort = granted(order_table_ask(output, length, selected, 2)) == 1 ? "no sort" : "a sort";
    printf("a merge join by (a,b) needs %s\n", sort);
    uint8_t joined = (uint8_t)granted(order_table_take(output, length, selected, 1));
    print_held("after set 1", length, joined);
    uint8_t joined_first = (uint8_t)granted(order_table_take(output, length, scan, 1));
    uint8_t selected_then = (uint8_t)granted(order_table_take(output, length, joined_first, 0));
    print_held("set 1, then set 0", length, selected_then);
    uint8_t sorted = (uint8_t)granted(order_table_enter(output, length, 1));
    print_held("sort by (b,a)", length, sorted);
    uint8_t sorted_joined = (uint8_t)granted(order_table_take(output, length, sorted, 1));
    print_held("after set 1", length, sorted_joined);

    uint32_t row = granted(order_table_row(output, length, scan));
    printf("successors of state %u: %u %u\n", scan, output[row], output[row + 1]);
    printf("set 2 refused with %u\n", order_table_refusal(order_table_take(output, length, scan, 2)));
    return 0;
}
