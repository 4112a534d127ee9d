/* A report that lists the newest rows first: columns of an order may be descending. The query is that of examples/newest.txt: columns time and axis; order
 * (time desc) can be produced, the others are only looked for; set 0 brings time -> axis. Each order is read back from the query and printed, with
 * whether rows in (time desc) need a sort for it. */
#include <stdio.h>

#include "order_tables.h"

static const uint8_t query[30] = {
    2, 1, 3, 1, 1,                                                    /* sizes N, P, T, S, D */
    1, 2, 2, 1, 16,                                                   /* heads of the five items */
    ORDER_TABLE_DESCENDING + 0, 255,                        255, 255, /* order 0, produced: (time desc) */
    ORDER_TABLE_DESCENDING + 0, 1,                          255, 255, /* order 1, tested: (time desc, axis) */
    ORDER_TABLE_DESCENDING + 0, ORDER_TABLE_DESCENDING + 1, 255, 255, /* order 2, tested: (time desc, axis desc) */
    0,                          255,                        255, 255, /* order 3, tested: (time) */
    0,                          1,                          255, 255, /* set 0: time -> axis */
};
static const char *const columns[2] = {"time", "axis"};

/* Prints an order from its value: its length in the lowest byte, then a byte for each column. */
static void print_order(uint64_t order) {
    size_t length = order & 0xff;
    printf("  (");
    for (size_t i = 1; i <= length; i++) {
        uint8_t byte = (uint8_t)(order >> (8 * i));
        const char *direction = byte >= ORDER_TABLE_DESCENDING ? " desc" : "";
        printf("%s%s%s", i == 1 ? "" : ", ", columns[byte % ORDER_TABLE_DESCENDING], direction);
    }
    printf(")");
}

/* Prints each order of the query, and whether rows in order 0 need a sort for it under a choice of sets, bit i for set i. */
static void print_sorts(const char *what, uint8_t sets) {
    uint8_t rows[ORDER_TABLE_TWO_ROWS];
    printf("%s:\n", what);
    for (uint8_t i = 0; i < 4; i++) {
        uint64_t order = order_query_order(query, sizeof query, i);
        uint32_t shown = order_query_counterexample(query, sizeof query, 0, sets, i, rows, sizeof rows);
        if (order_query_item_refusal(order) != ORDER_TABLE_GRANTED || order_table_refusal(shown) != ORDER_TABLE_GRANTED) {
            printf("  order %u is refused\n", i);
            continue;
        }
        print_order(order_query_item_value(order));
        printf(": %s\n", order_table_value(shown) == 1 ? "a sort" : "no sort");
    }
}

int main(void) {
    print_sorts("scan in (time desc)", 0);
    print_sorts("after set 0", 1 << 0);
    return 0;
}
