/* Rewritings with a Const that the rule matches: when it stays and when it goes.
 * The tests of the header and of the wrapper all make these calls, from start 0. */
#ifndef LEAFGRAPH_SHARED_CONSTANTS_H
#define LEAFGRAPH_SHARED_CONSTANTS_H

#include <string.h>

#include "counts.h"
#include "leafgraph.h"

enum { SLOTS = 5, HEADER_LENGTH = 24, RECORD_LENGTH = 48, NO_OUTPUT = 255 };
enum { TABLE_LENGTH = HEADER_LENGTH + RECORD_LENGTH * SLOTS };

/* What a slot may hold here. SUM is add(1, 0), TWICE is add(0, 0), SUM_3_1 is add(3, 1). */
enum { EMPTY, SEVEN, VARIABLE, SUM, TWICE, RELU_0, RELU_1, RELU_2, SUM_3_1 };

/* In that order, before anything is counted. What a row leaves out is zero. */
static const uint8_t records[][RECORD_LENGTH] = {
    {0, 0, 0, 0, 255, 255, 255, 255, 255, 255, 255, 255, 255, 255, 255, 255},
    {1, 0, 0, 1, 255, 255, 255, 255, 255, 255, 255, 255, 255, 255, 255, 255, 7},
    {2, 0, 0, 5, 255, 255, 255, 255, 255, 255, 255, 255, 255, 255, 255, 255, 1},
    {3, 1, 2, 0, 1, 0, 0, 0, 255, 255, 255, 255, 255, 255, 255, 255},
    {3, 1, 2, 0, 0, 0, 0, 0, 255, 255, 255, 255, 255, 255, 255, 255},
    {3, 7, 1, 0, 0, 0, 255, 255, 255, 255, 255, 255, 255, 255, 255, 255},
    {3, 7, 1, 0, 1, 0, 255, 255, 255, 255, 255, 255, 255, 255, 255, 255},
    {3, 7, 1, 0, 2, 0, 255, 255, 255, 255, 255, 255, 255, 255, 255, 255},
    {3, 1, 2, 0, 3, 0, 1, 0, 255, 255, 255, 255, 255, 255, 255, 255}
};

/* add(x, Const) becomes relu(relu(x)). */
static const uint8_t sum_rule[104] = {
    'L', 'G', 'R', 0, 1, 0, 3, 2, 1, 1, 2, 255, 17, 255, 0, 0,
    0, 0, 0, 0, 255, 255, 255, 255, 255, 255, 255, 255, 255, 255, 255, 255,
    1, 0, 0, 1, 255, 255, 255, 255, 255, 255, 0, 255, 255, 255, 255, 255,
    3, 1, 2, 0, 0, 1, 255, 255, 255, 255, 255, 255, 255, 255, 255, 255,
    3, 7, 1, 0, 0, 255, 255, 255, 255, 255, 255, 255, 255, 255, 255, 255,
    3, 7, 1, 0, 16, 255, 255, 255, 255, 255, 255, 255, 255, 255, 255, 255
};

/* add(Const, Const) becomes a Const with the first one's number. */
static const uint8_t two_consts_rule[96] = {
    'L', 'G', 'R', 0, 1, 0, 3, 1, 1, 2, 2, 255, 16, 255, 0, 0,
    1, 0, 0, 1, 255, 255, 255, 255, 255, 255, 0, 255, 255, 255, 255, 255,
    1, 0, 0, 1, 255, 255, 255, 255, 255, 255, 0, 255, 255, 255, 255, 255,
    3, 1, 2, 0, 0, 1, 255, 255, 255, 255, 255, 255, 255, 255, 255, 255,
    1, 0, 0, 1, 255, 255, 255, 255, 255, 255, 1, 255, 255, 255, 255, 255,
    0, 0, 0, 0, 0, 0, 0, 0, 2, 0, 1
};

/* The images of both rules' source vertices, wherever there is a match. */
static const uint8_t constants_map[6] = {1, 0, 0, 0, 2, 0};

struct table {
    uint8_t outputs[2];
    uint8_t slots[SLOTS];
};

struct constants_call {
    const char *what;
    const uint8_t *rule;
    size_t rule_len;
    unsigned reply;
    struct table before, after;
};

static const struct constants_call constants_calls[] = {
    {"a Const that only the sum reads goes", sum_rule, sizeof sum_rule, LG_DONE,
     {{2, NO_OUTPUT}, {SEVEN, VARIABLE, SUM, EMPTY, EMPTY}},
     {{2, NO_OUTPUT}, {RELU_1, VARIABLE, RELU_0, EMPTY, EMPTY}}},
    /* Its slot is the lowest, but no target vertex takes it. */
    {"a Const that something else reads stays", sum_rule, sizeof sum_rule, LG_DONE,
     {{2, NO_OUTPUT}, {SEVEN, VARIABLE, SUM, RELU_0, EMPTY}},
     {{4, NO_OUTPUT}, {SEVEN, VARIABLE, RELU_1, RELU_0, RELU_2}}},
    {"a Const that is a graph output stays", sum_rule, sizeof sum_rule, LG_DONE,
     {{2, 0}, {SEVEN, VARIABLE, SUM, EMPTY, EMPTY}},
     {{3, 0}, {SEVEN, VARIABLE, RELU_1, RELU_2, EMPTY}}},
    {"a Const that a rule input reads stays", sum_rule, sizeof sum_rule, LG_DONE,
     {{2, NO_OUTPUT}, {SEVEN, RELU_0, SUM, EMPTY, EMPTY}},
     {{3, NO_OUTPUT}, {SEVEN, RELU_0, RELU_1, RELU_2, EMPTY}}},
    {"a Const that goes makes room", sum_rule, sizeof sum_rule, LG_DONE,
     {{2, NO_OUTPUT}, {SEVEN, VARIABLE, SUM, VARIABLE, VARIABLE}},
     {{2, NO_OUTPUT}, {RELU_1, VARIABLE, RELU_0, VARIABLE, VARIABLE}}},
    {"a Const that stays makes no room", sum_rule, sizeof sum_rule, LG_NO_ROOM,
     {{2, NO_OUTPUT}, {SEVEN, VARIABLE, SUM, VARIABLE, RELU_0}},
     {{2, NO_OUTPUT}, {SEVEN, VARIABLE, SUM, VARIABLE, RELU_0}}},
    {"two Consts match two", two_consts_rule, sizeof two_consts_rule, LG_DONE,
     {{2, NO_OUTPUT}, {SEVEN, SEVEN, SUM, EMPTY, EMPTY}},
     {{0, NO_OUTPUT}, {SEVEN, EMPTY, EMPTY, EMPTY, EMPTY}}},
    {"of two Consts one stays", two_consts_rule, sizeof two_consts_rule, LG_DONE,
     {{2, NO_OUTPUT}, {SEVEN, SEVEN, SUM, RELU_0, EMPTY}},
     {{1, NO_OUTPUT}, {SEVEN, SEVEN, EMPTY, RELU_0, EMPTY}}},
    {"two Consts do not match one", two_consts_rule, sizeof two_consts_rule, LG_NO_MATCH,
     {{2, NO_OUTPUT}, {SEVEN, VARIABLE, TWICE, EMPTY, EMPTY}},
     {{2, NO_OUTPUT}, {SEVEN, VARIABLE, TWICE, EMPTY, EMPTY}}}
};

/* Writes the graph block of a table, TABLE_LENGTH bytes, with true counts. */
static inline void put_table(uint8_t *block, const struct table *table) {
    static const uint8_t header[HEADER_LENGTH] = {
        'L', 'G', 'T', 0, 2, 0, SLOTS, 0, 1, 0, 0, 0, 255, 255, 255, 255, 255, 255
    };
    size_t slot;
    memcpy(block, header, HEADER_LENGTH);
    block[10] = table->outputs[0];
    if (table->outputs[1] != NO_OUTPUT) {
        block[8] = 2;
        block[12] = table->outputs[1];
        block[13] = 0;
    }
    for (slot = 0; slot < SLOTS; slot++) {
        memcpy(block + HEADER_LENGTH + RECORD_LENGTH * slot, records[table->slots[slot]],
               RECORD_LENGTH);
    }
    put_counts(block);
}

#endif
