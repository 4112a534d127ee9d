/* A planner that gets its tables from a supplier: it uses one only when its trial for the query accepts it.
 * The query and the tables are files of examples/: columns a, b, c; orders (a) and (b,a) can be produced, (a,b) and (c) are only looked for;
 * set 0 brings a -> b and set 1 brings b = c. Run it from the repository's root. */
#include <stdio.h>

#include "order_tables.h"

static const char *const names[4] = {"first", "renumbered", "unmerged", "damaged"};

/* Each buffer has room for one byte more than the longest, so that a longer file is refused and not cut. */
static uint8_t query[ORDER_TABLE_LONGEST_QUERY + 1];
static uint8_t table[ORDER_TABLE_LONGEST_TABLE + 1];
static uint8_t scratch[ORDER_TABLE_SCRATCH];

/* Reads a file's bytes, as far as there is room. Returns their count, or 0 if the file cannot be opened; every check refuses 0 bytes. */
static size_t read_file(const char *path, uint8_t *bytes, size_t room) {
    FILE *file = fopen(path, "rb");
    if (file == NULL) {
        return 0;
    }
    size_t length = fread(bytes, 1, room, file);
    fclose(file);
    return length;
}

/* Whether a result is refused; if so, prints with what. */
static int refused(uint32_t result) {
    uint32_t refusal = order_table_refusal(result);
    if (refusal != ORDER_TABLE_GRANTED) {
        printf("refused with %u\n", refusal);
    }
    return refusal != ORDER_TABLE_GRANTED;
}

/* Uses a table that was accepted: says whether a scan in (a) is in the order (a,b) after set 0. Each refusal is looked at before the value is used. */
static void print_use(size_t length) {
    uint32_t scan = order_table_enter(table, length, 0);
    if (refused(scan)) {
        return;
    }
    uint32_t selected = order_table_take(table, length, (uint8_t)order_table_value(scan), 0);
    if (refused(selected)) {
        return;
    }
    uint8_t state = (uint8_t)order_table_value(selected);
    uint32_t asked = order_table_ask(table, length, state, 2);
    if (refused(asked)) {
        return;
    }
    printf("after set 0 state %u, (a,b) %s\n", state, order_table_value(asked) == 1 ? "held" : "not held");
}

int main(void) {
    size_t query_length = read_file("examples/first.query", query, sizeof query);
    for (size_t i = 0; i < 4; i++) {
        char path[64];
        snprintf(path, sizeof path, "examples/%s.table", names[i]);
        size_t length = read_file(path, table, sizeof table);
        printf("%s: ", names[i]);
        if (!refused(order_table_verify(query, query_length, table, length, scratch, sizeof scratch))) {
            printf("accepted, ");
            print_use(length);
        }
    }
    return 0;
}
