/* Enter, take, ask and word written by hand, with the checks of document 01: 1, 2, 1, then 10, then 11 for a start or successor.
 * A result is a refusal's number times 65,536 plus a value. */
#include <stddef.h>
#include <stdint.h>

#define REFUSED(number) ((uint32_t)(number) << 16)

/* The refusal of a table's length or sizes, or 0. */
static inline uint32_t form(const uint8_t *table, size_t length) {
    if (length < 4) {
        return REFUSED(1);
    }
    uint8_t states = table[0], produced = table[1], tested = table[2], sets = table[3];
    if (states < 1 || states > 128 || produced < 1 || produced > 8 || tested > 8 || sets > 8) {
        return REFUSED(2);
    }
    if (length != (size_t)4 + produced + (size_t)states * (sets + 2)) {
        return REFUSED(1);
    }
    return 0;
}

/* The held word of a state that is in the table: the low held byte plus 256 times the high one. */
static inline uint32_t held(const uint8_t *table, uint8_t state) {
    size_t at = (size_t)4 + table[1] + (size_t)table[0] * table[3] + (size_t)2 * state;
    return table[at] | (uint32_t)table[at + 1] << 8;
}

uint32_t by_hand_enter(const uint8_t *table, size_t length, uint8_t produced) {
    uint32_t refused = form(table, length);
    if (refused != 0) {
        return refused;
    }
    if (produced >= table[1]) {
        return REFUSED(10);
    }
    uint8_t start = table[4 + produced];
    return start < table[0] ? start : REFUSED(11);
}

uint32_t by_hand_take(const uint8_t *table, size_t length, uint8_t state, uint8_t set) {
    uint32_t refused = form(table, length);
    if (refused != 0) {
        return refused;
    }
    if (state >= table[0] || set >= table[3]) {
        return REFUSED(10);
    }
    uint8_t next = table[(size_t)4 + table[1] + (size_t)state * table[3] + set];
    return next < table[0] ? next : REFUSED(11);
}

uint32_t by_hand_ask(const uint8_t *table, size_t length, uint8_t state, uint8_t order) {
    uint32_t refused = form(table, length);
    if (refused != 0) {
        return refused;
    }
    if (state >= table[0] || order >= table[1] + table[2]) {
        return REFUSED(10);
    }
    return (held(table, state) >> order) & 1;
}

uint32_t by_hand_word(const uint8_t *table, size_t length, uint8_t state) {
    uint32_t refused = form(table, length);
    if (refused != 0) {
        return refused;
    }
    if (state >= table[0]) {
        return REFUSED(10);
    }
    return held(table, state);
}
