/* Graphs before and after a sweep, and before and after a squeeze with its list of moves.
 * The tests of the header and of the wrapper all make these calls. */
#ifndef LEAFGRAPH_SWEEP_SQUEEZE_H
#define LEAFGRAPH_SWEEP_SQUEEZE_H

#include <string.h>

#include "leafgraph.h"
#include "shared_constants.h"

enum { MOVES_LENGTH = 2 * SLOTS };

struct sweep_call {
    const char *what;
    struct table before, after;
};

static const struct sweep_call sweep_calls[] = {
    {"a sweep with nothing to do",
     {{2, NO_OUTPUT}, {SEVEN, VARIABLE, SUM, EMPTY, EMPTY}},
     {{2, NO_OUTPUT}, {SEVEN, VARIABLE, SUM, EMPTY, EMPTY}}},
    /* Slot 2 is read, but only by what goes. */
    {"a chain that no output needs goes",
     {{1, NO_OUTPUT}, {VARIABLE, RELU_0, RELU_1, RELU_2, EMPTY}},
     {{1, NO_OUTPUT}, {VARIABLE, RELU_0, EMPTY, EMPTY, EMPTY}}},
    {"Variables stay, read by what goes or by nobody",
     {{0, NO_OUTPUT}, {SEVEN, VARIABLE, VARIABLE, RELU_1, VARIABLE}},
     {{0, NO_OUTPUT}, {SEVEN, VARIABLE, VARIABLE, EMPTY, VARIABLE}}},
    {"a Const that nobody reads goes",
     {{1, NO_OUTPUT}, {SEVEN, VARIABLE, EMPTY, SEVEN, EMPTY}},
     {{1, NO_OUTPUT}, {EMPTY, VARIABLE, EMPTY, EMPTY, EMPTY}}},
    {"a Const that is an output stays",
     {{0, NO_OUTPUT}, {SEVEN, VARIABLE, SUM, EMPTY, EMPTY}},
     {{0, NO_OUTPUT}, {SEVEN, VARIABLE, EMPTY, EMPTY, EMPTY}}},
    {"what the second output needs stays",
     {{1, 3}, {VARIABLE, RELU_0, RELU_0, RELU_2, RELU_2}},
     {{1, 3}, {VARIABLE, RELU_0, RELU_0, RELU_2, EMPTY}}},
    {"a chain that an output needs stays",
     {{3, NO_OUTPUT}, {SEVEN, RELU_0, RELU_1, RELU_2, RELU_1}},
     {{3, NO_OUTPUT}, {SEVEN, RELU_0, RELU_1, RELU_2, EMPTY}}},
    {"so does one whose slots are in no order",
     {{0, NO_OUTPUT}, {RELU_2, SEVEN, RELU_1, RELU_0, RELU_2}},
     {{0, NO_OUTPUT}, {RELU_2, SEVEN, RELU_1, EMPTY, EMPTY}}}
};

struct squeeze_call {
    const char *what;
    struct table before, after;
    uint8_t moves[SLOTS]; /* NO_OUTPUT for an Empty slot */
};

static const struct squeeze_call squeeze_calls[] = {
    {"a squeeze with nothing to do",
     {{2, NO_OUTPUT}, {SEVEN, VARIABLE, SUM, EMPTY, EMPTY}},
     {{2, NO_OUTPUT}, {SEVEN, VARIABLE, SUM, EMPTY, EMPTY}},
     {0, 1, 2, NO_OUTPUT, NO_OUTPUT}},
    {"a squeeze of a full graph",
     {{2, 4}, {SEVEN, VARIABLE, SUM, VARIABLE, RELU_2}},
     {{2, 4}, {SEVEN, VARIABLE, SUM, VARIABLE, RELU_2}},
     {0, 1, 2, 3, 4}},
    {"both inputs and both outputs follow",
     {{4, 1}, {EMPTY, SEVEN, EMPTY, VARIABLE, SUM_3_1}},
     {{2, 0}, {SEVEN, VARIABLE, SUM, EMPTY, EMPTY}},
     {NO_OUTPUT, 0, NO_OUTPUT, 1, 2}},
    {"an input that names a higher slot follows",
     {{1, NO_OUTPUT}, {EMPTY, RELU_2, VARIABLE, EMPTY, EMPTY}},
     {{0, NO_OUTPUT}, {RELU_1, VARIABLE, EMPTY, EMPTY, EMPTY}},
     {NO_OUTPUT, 0, 1, NO_OUTPUT, NO_OUTPUT}},
    {"what no output needs moves, and does not go",
     {{2, NO_OUTPUT}, {EMPTY, SEVEN, VARIABLE, RELU_2, VARIABLE}},
     {{1, NO_OUTPUT}, {SEVEN, VARIABLE, RELU_1, VARIABLE, EMPTY}},
     {NO_OUTPUT, 0, 1, 2, 3}},
    {"the last slot goes to the first",
     {{4, 4}, {EMPTY, EMPTY, EMPTY, EMPTY, VARIABLE}},
     {{0, 0}, {VARIABLE, EMPTY, EMPTY, EMPTY, EMPTY}},
     {NO_OUTPUT, NO_OUTPUT, NO_OUTPUT, NO_OUTPUT, 0}}
};

/* Writes the list of moves, MOVES_LENGTH bytes. */
static inline void put_moves(uint8_t *list, const struct squeeze_call *call) {
    size_t slot;
    for (slot = 0; slot < SLOTS; slot++) {
        list[2 * slot] = call->moves[slot];
        list[2 * slot + 1] = call->moves[slot] == NO_OUTPUT ? 255 : 0;
    }
}

/* The list of another squeeze after that: each vertex stays where it went. */
static inline void put_moves_again(uint8_t *list, const struct squeeze_call *call) {
    size_t slot;
    memset(list, 255, MOVES_LENGTH);
    for (slot = 0; slot < SLOTS; slot++) {
        const uint8_t went = call->moves[slot];
        if (went != NO_OUTPUT) {
            list[2 * went] = went;
            list[2 * went + 1] = 0;
        }
    }
}

/* Lengths of a list that SLOTS slots do not have. */
static const size_t bad_moves_lengths[] = {
    0, 1, 2, SLOTS, MOVES_LENGTH - 2, MOVES_LENGTH - 1, MOVES_LENGTH + 1, MOVES_LENGTH + 2
};

enum { LONGEST_LIST = MOVES_LENGTH + 2 };

#endif
