/* Graphs, and the counts that an import of their blocks of version 1 writes, said here by
 * hand. The tests of the header and of the wrapper all make these calls. */
#ifndef LEAFGRAPH_IMPORTS_H
#define LEAFGRAPH_IMPORTS_H

#include "leafgraph.h"
#include "shared_constants.h"

struct import_call {
    const char *what;
    struct table table;
    uint8_t counts[SLOTS];
};

static const struct import_call import_calls[] = {
    {"inputs and an output count",
     {{2, NO_OUTPUT}, {SEVEN, VARIABLE, SUM, EMPTY, EMPTY}}, {1, 1, 1, 0, 0}},
    {"two input places of one reader count two",
     {{2, NO_OUTPUT}, {SEVEN, VARIABLE, TWICE, EMPTY, EMPTY}}, {2, 0, 1, 0, 0}},
    {"an output that is named twice counts two",
     {{2, 2}, {SEVEN, VARIABLE, SUM, EMPTY, EMPTY}}, {1, 1, 2, 0, 0}},
    {"a reader that no output needs counts",
     {{1, NO_OUTPUT}, {VARIABLE, RELU_0, RELU_1, RELU_2, EMPTY}}, {1, 2, 1, 0, 0}},
    {"slots in no order count",
     {{0, NO_OUTPUT}, {RELU_2, SEVEN, RELU_1, RELU_0, RELU_2}}, {2, 1, 2, 0, 0}},
    {"what is read from two sides, and is an output",
     {{3, 1}, {EMPTY, SEVEN, EMPTY, VARIABLE, SUM_3_1}}, {0, 2, 0, 2, 0}}
};

/* Writes the block of version 1 that is imported, and the one that it becomes; both have
 * TABLE_LENGTH bytes. */
static inline void put_import(uint8_t *before, uint8_t *after, const struct import_call *call) {
    size_t slot;
    put_table(before, &call->table);
    put_table(after, &call->table);
    make_version_1(before);
    for (slot = 0; slot < SLOTS; slot++) {
        put_count(after, slot, call->counts[slot]);
    }
}

#endif
