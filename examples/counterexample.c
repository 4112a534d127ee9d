/* A planner author's question: why is a sort needed? Two rows show it: they are in the order that the scan delivers, and not in the one looked for.
 * The query is a file of examples/: columns a, b, c; orders (a) and (b,a) can be produced, (a,b) and (c) are only looked for; set 0 brings a -> b and
 * set 1 brings b = c. Run it from the repository's root. */
#include <stdio.h>

#include "order_tables.h"

/* There is room for one byte more than the longest query has, so that a longer file is refused and not cut. */
static uint8_t query[ORDER_TABLE_LONGEST_QUERY + 1];
static uint8_t rows[ORDER_TABLE_TWO_ROWS];

/* Prints a row, each value behind the name of its column. */
static void print_row(const uint8_t *row, size_t columns) {
    for (size_t column = 0; column < columns; column++) {
        printf("  %c %u", (char)('a' + column), row[column]);
    }
    printf("\n");
}

/* Says whether a scan in (a), order 0, is in (a,b), order 2, under a choice of sets, bit i for set i. Where it is not, two rows show it. */
static void print_why(const char *what, size_t length, uint8_t sets) {
    uint32_t shown = order_query_counterexample(query, length, 0, sets, 2, rows, sizeof rows);
    if (order_table_refusal(shown) != ORDER_TABLE_GRANTED) {
        printf("%s: refused with %u\n", what, order_table_refusal(shown));
        return;
    }
    if (order_table_value(shown) == 0) {
        printf("%s: none, (a,b) needs no sort\n", what);
        return;
    }
    printf("%s: (a,b) needs a sort, as two rows show\n", what);
    size_t columns = query[0];
    print_row(rows, columns);
    print_row(rows + columns, columns);
}

int main(void) {
    FILE *file = fopen("examples/first.query", "rb");
    if (file == NULL) {
        printf("examples/first.query cannot be read\n");
        return 1;
    }
    size_t length = fread(query, 1, sizeof query, file);
    fclose(file);
    print_why("scan in (a)", length, 0);
    print_why("after set 0", length, 1 << 0);
    print_why("after set 1", length, 1 << 1);
    print_why("after sets 0 and 1", length, 1 << 0 | 1 << 1);
    print_why("after set 2", length, 1 << 2);
    return 0;
}
