/* A planner whose report gains an order while it runs. A whole build is too long for one control cycle, so the new table is built in steps, one behind each
 * cycle. Until the last step the planner goes on by the old table, in the same buffer. The old query is that of examples/first.txt: columns time, axis,
 * code; set 0, the filter, brings time -> axis and set 1, the join, brings axis = code. The new one has (time, code) besides. */
#include <stdio.h>
#include <stdlib.h>

#include "order_tables.h"

static const uint8_t old_query[35] = {
    3, 2, 2, 2, 2,      /* sizes N, P, T, S, D */
    1, 2, 2, 1, 16, 65, /* heads of the six items */
    0, 255, 255, 255,   /* order 0, produced: (time) */
    1, 0,   255, 255,   /* order 1, produced: (axis, time) */
    0, 1,   255, 255,   /* order 2, tested: (time, axis) */
    2, 255, 255, 255,   /* order 3, tested: (code) */
    0, 1,   255, 255,   /* set 0: time -> axis */
    1, 2,   255, 255,   /* set 1: axis = code */
};
static const uint8_t new_query[40] = {
    3, 2, 3, 2, 2,         /* sizes N, P, T, S, D */
    1, 2, 2, 1, 2, 16, 65, /* heads of the seven items */
    0, 255, 255, 255,      /* order 0, produced: (time) */
    1, 0,   255, 255,      /* order 1, produced: (axis, time) */
    0, 1,   255, 255,      /* order 2, tested: (time, axis) */
    2, 255, 255, 255,      /* order 3, tested: (code) */
    0, 2,   255, 255,      /* order 4, tested: (time, code) */
    0, 1,   255, 255,      /* set 0: time -> axis */
    1, 2,   255, 255,      /* set 1: axis = code */
};

static uint8_t scratch[ORDER_TABLE_SCRATCH];
static uint8_t table[ORDER_TABLE_LONGEST_TABLE];

/* The value of a result. A refusal ends the program: its value, 0, is no state and no answer. */
static uint32_t granted(uint32_t result) {
    uint32_t refusal = order_table_refusal(result);
    if (refusal != ORDER_TABLE_GRANTED) {
        fprintf(stderr, "refused %u, %s\n", refusal, order_table_refusal_word(refusal));
        exit(EXIT_FAILURE);
    }
    return order_table_value(result);
}

/* Says whether rows in a state need a sort by an order. By one that the table does not have yet, refused with 10, they do. */
static const char *sort(size_t length, uint8_t state, uint8_t order) {
    uint32_t asked = order_table_ask(table, length, state, order);
    if (order_table_refusal(asked) == ORDER_TABLE_HANDLE) {
        return "a sort";
    }
    return granted(asked) == 1 ? "no sort" : "a sort";
}

/* A control cycle, in which the planner has the table in use: a scan in (time) is filtered and joined. */
static void print_plan(size_t length) {
    uint8_t scan = (uint8_t)granted(order_table_enter(table, length, 0));
    uint8_t filtered = (uint8_t)granted(order_table_take(table, length, scan, 0));
    uint8_t joined = (uint8_t)granted(order_table_take(table, length, filtered, 1));
    printf("(time, axis) needs %s, (time, code) needs %s\n", sort(length, joined, 2), sort(length, joined, 4));
}

int main(void) {
    size_t length = granted(order_table_build(old_query, sizeof old_query, scratch, sizeof scratch, table, sizeof table));
    unsigned pairs = new_query[1] * (1u << new_query[3]);
    granted(order_table_begin(new_query, sizeof new_query, scratch, sizeof scratch));
    for (;;) {
        unsigned count = scratch[0] + 256u * scratch[1];
        printf("%u of %u pairs settled: ", count - 1, pairs);
        print_plan(length);
        uint32_t continued = order_table_continue(new_query, sizeof new_query, scratch, sizeof scratch, table, sizeof table);
        if (order_table_refusal(continued) != ORDER_TABLE_GRANTED) {
            printf("refused with %u, and the old table stays\n", order_table_refusal(continued));
            break;
        }
        if (order_table_value(continued) != 0) {
            length = order_table_value(continued);
            printf("new table of %zu bytes: ", length);
            break;
        }
    }
    print_plan(length);
    return 0;
}
