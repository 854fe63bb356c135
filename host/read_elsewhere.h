/* Matches, and what is asked about one of their vertices: whether its image is read
 * elsewhere. The tests of the header and of the wrapper all make these calls. */
#ifndef LEAFGRAPH_READ_ELSEWHERE_H
#define LEAFGRAPH_READ_ELSEWHERE_H

#include <string.h>

#include "faults.h"
#include "leafgraph.h"
#include "shared_constants.h"

/* add(relu(x), relu(x)), the same relu twice, becomes relu(x). */
static const uint8_t doubled_rule[80] = {
    'L', 'G', 'R', 0, 1, 0, 3, 1, 1, 0, 2, 255, 16, 255, 0, 0,
    0, 0, 0, 0, 255, 255, 255, 255, 255, 255, 255, 255, 255, 255, 255, 255,
    3, 7, 1, 0, 0, 255, 255, 255, 255, 255, 255, 255, 255, 255, 255, 255,
    3, 1, 2, 0, 1, 1, 255, 255, 255, 255, 255, 255, 255, 255, 255, 255,
    3, 7, 1, 0, 0, 255, 255, 255, 255, 255, 255, 255, 255, 255, 255, 255
};

/* add(Const, Const), the same Const twice, becomes a Const with its number. */
static const uint8_t doubled_const_rule[80] = {
    'L', 'G', 'R', 0, 1, 0, 2, 1, 1, 2, 1, 255, 16, 255, 0, 0,
    1, 0, 0, 1, 255, 255, 255, 255, 255, 255, 0, 255, 255, 255, 255, 255,
    3, 1, 2, 0, 0, 0, 255, 255, 255, 255, 255, 255, 255, 255, 255, 255,
    1, 0, 0, 1, 255, 255, 255, 255, 255, 255, 1, 255, 255, 255, 255, 255,
    0, 0, 0, 0, 0, 0, 0, 0,
    2, 0, 1, 0, 0, 0, 0, 0
};

/* add(relu(x), y) becomes add(x, y). */
static const uint8_t relu_and_other_rule[96] = {
    'L', 'G', 'R', 0, 1, 0, 4, 1, 1, 0, 3, 255, 16, 255, 0, 0,
    0, 0, 0, 0, 255, 255, 255, 255, 255, 255, 255, 255, 255, 255, 255, 255,
    3, 7, 1, 0, 0, 255, 255, 255, 255, 255, 255, 255, 255, 255, 255, 255,
    0, 0, 0, 0, 255, 255, 255, 255, 255, 255, 255, 255, 255, 255, 255, 255,
    3, 1, 2, 0, 1, 2, 255, 255, 255, 255, 255, 255, 255, 255, 255, 255,
    3, 1, 2, 0, 0, 2, 255, 255, 255, 255, 255, 255, 255, 255, 255, 255
};

enum { NO, YES };
enum { MOST_SOURCES = 4, MAP_PLACES = 16 };

struct read_call {
    const char *what;
    const uint8_t *rule;
    size_t rule_len;
    struct table table;
    uint8_t images[MOST_SOURCES]; /* NO_OUTPUT past the last source vertex */
    size_t vertex;
    unsigned number;
    uint32_t value;
};

#define DOUBLED doubled_rule, sizeof doubled_rule
#define DOUBLED_CONST doubled_const_rule, sizeof doubled_const_rule
#define RELU_AND_OTHER relu_and_other_rule, sizeof relu_and_other_rule

/* In each there is one match at most, except in the chains of relus. */
#define CHAIN {{3, NO_OUTPUT}, {VARIABLE, RELU_0, RELU_1, RELU_2, EMPTY}}
#define ONE_SUM {{2, NO_OUTPUT}, {SEVEN, VARIABLE, SUM, EMPTY, EMPTY}}
#define SUM_IMAGES {1, 0, 2, NO_OUTPUT}

static const struct read_call read_calls[] = {
    /* Outputs of the rule. */
    {"an output that is a graph output", SUM_RULE, ONE_SUM, SUM_IMAGES, 2, LG_DONE, YES},
    {"an output that nothing names", SUM_RULE,
     {{1, NO_OUTPUT}, {SEVEN, VARIABLE, SUM, EMPTY, EMPTY}}, SUM_IMAGES, 2, LG_DONE, NO},
    {"an output that another vertex reads", SUM_RULE,
     {{1, NO_OUTPUT}, {SEVEN, VARIABLE, SUM, RELU_2, EMPTY}}, SUM_IMAGES, 2, LG_DONE, YES},
    /* Consts. */
    {"a Const that only the match reads", SUM_RULE, ONE_SUM, SUM_IMAGES, 1, LG_DONE, NO},
    {"a Const that another vertex reads", SUM_RULE,
     {{2, NO_OUTPUT}, {SEVEN, VARIABLE, SUM, RELU_0, EMPTY}}, SUM_IMAGES, 1, LG_DONE, YES},
    {"a Const that is a graph output", SUM_RULE,
     {{2, 0}, {SEVEN, VARIABLE, SUM, EMPTY, EMPTY}}, SUM_IMAGES, 1, LG_DONE, YES},
    {"a Const that a rule input reads", SUM_RULE,
     {{2, NO_OUTPUT}, {SEVEN, RELU_0, SUM, EMPTY, EMPTY}}, SUM_IMAGES, 1, LG_DONE, YES},
    {"of two Consts the shared one", TWO_CONSTS,
     {{2, NO_OUTPUT}, {SEVEN, SEVEN, SUM, RELU_0, EMPTY}}, SUM_IMAGES, 1, LG_DONE, YES},
    {"of two Consts the other one", TWO_CONSTS,
     {{2, NO_OUTPUT}, {SEVEN, SEVEN, SUM, RELU_0, EMPTY}}, SUM_IMAGES, 0, LG_DONE, NO},
    {"a Const that the match reads twice", DOUBLED_CONST,
     {{2, NO_OUTPUT}, {SEVEN, EMPTY, TWICE, EMPTY, EMPTY}},
     {0, 2, NO_OUTPUT, NO_OUTPUT}, 0, LG_DONE, NO},
    {"the same where another vertex reads it, too", DOUBLED_CONST,
     {{2, NO_OUTPUT}, {SEVEN, EMPTY, TWICE, RELU_0, EMPTY}},
     {0, 2, NO_OUTPUT, NO_OUTPUT}, 0, LG_DONE, YES},
    /* Interior vertices that are no Consts: only the match reads them, or it is none. */
    {"an interior vertex", TWO_RELUS, CHAIN, {0, 1, 2, NO_OUTPUT}, 1, LG_DONE, NO},
    {"one that is read twice", DOUBLED,
     {{2, NO_OUTPUT}, {RELU_1, VARIABLE, TWICE, EMPTY, EMPTY}}, SUM_IMAGES, 1, LG_DONE, NO},
    {"one that another vertex reads", DOUBLED,
     {{2, NO_OUTPUT}, {RELU_1, VARIABLE, TWICE, RELU_0, EMPTY}}, SUM_IMAGES, 1,
     LG_NOT_A_MATCH, 0},
    {"one that is a graph output", DOUBLED,
     {{2, 0}, {RELU_1, VARIABLE, TWICE, EMPTY, EMPTY}}, SUM_IMAGES, 1, LG_NOT_A_MATCH, 0},
    {"one beside a rule input that does not read it", RELU_AND_OTHER,
     {{3, NO_OUTPUT}, {VARIABLE, RELU_2, VARIABLE, SUM, EMPTY}}, {2, 1, 0, 3}, 1, LG_DONE, NO},
    {"one that a rule input reads", RELU_AND_OTHER,
     {{3, NO_OUTPUT}, {RELU_1, RELU_2, VARIABLE, SUM, EMPTY}}, {2, 1, 0, 3}, 1,
     LG_NOT_A_MATCH, 0},
    /* Any match, and not only the least one, which is that from slot 0 up. */
    {"the output of the least match", TWO_RELUS, CHAIN, {0, 1, 2, NO_OUTPUT}, 2, LG_DONE, YES},
    {"the interior vertex of another match", TWO_RELUS, CHAIN, {1, 2, 3, NO_OUTPUT}, 1,
     LG_DONE, NO},
    {"the output of another match", TWO_RELUS, CHAIN, {1, 2, 3, NO_OUTPUT}, 2, LG_DONE, YES},
    /* Maps that are no match; the vertex comes after them. */
    {"two vertices with one image", TWO_CONSTS,
     {{2, NO_OUTPUT}, {SEVEN, VARIABLE, TWICE, EMPTY, EMPTY}}, {0, 0, 2, NO_OUTPUT}, 2,
     LG_NOT_A_MATCH, 0},
    {"a wildcard on an Empty slot", SUM_RULE, ONE_SUM, {3, 0, 2, NO_OUTPUT}, 2,
     LG_NOT_A_MATCH, 0},
    {"inputs that are exchanged", TWO_CONSTS,
     {{2, NO_OUTPUT}, {SEVEN, SEVEN, SUM, EMPTY, EMPTY}}, {0, 1, 2, NO_OUTPUT}, 2,
     LG_NOT_A_MATCH, 0},
    {"a match with a number past it", SUM_RULE, ONE_SUM, {1, 0, 2, 1}, 2, LG_NOT_A_MATCH, 0},
    {"no match before no vertex", SUM_RULE, ONE_SUM, {1, 0, 3, NO_OUTPUT}, SIZE_MAX,
     LG_NOT_A_MATCH, 0},
    /* Vertices that are none to ask about. */
    {"a wildcard", SUM_RULE, ONE_SUM, SUM_IMAGES, 0, LG_NO_SUCH_VERTEX, 0},
    {"the first number that is no vertex", SUM_RULE, ONE_SUM, SUM_IMAGES, 3,
     LG_NO_SUCH_VERTEX, 0},
    {"a number that no map has", SUM_RULE, ONE_SUM, SUM_IMAGES, 16, LG_NO_SUCH_VERTEX, 0},
    {"a vertex's number in its low byte alone", SUM_RULE, ONE_SUM, SUM_IMAGES, 256 + 2,
     LG_NO_SUCH_VERTEX, 0},
    {"the largest number", SUM_RULE, ONE_SUM, SUM_IMAGES, SIZE_MAX, LG_NO_SUCH_VERTEX, 0}
};

/* Writes this place of a map. */
static inline void put_image(uint8_t *map, size_t place, unsigned slot) {
    map[2 * place] = slot & 255U;
    map[2 * place + 1] = (slot >> 8) & 255U;
}

/* Writes the map of a call, LG_MAP_LENGTH bytes. */
static inline void put_images(uint8_t *map, const struct read_call *call) {
    size_t place;
    memset(map, 255, LG_MAP_LENGTH);
    for (place = 0; place < MOST_SOURCES; place++) {
        if (call->images[place] != NO_OUTPUT) {
            put_image(map, place, call->images[place]);
        }
    }
}

/* The call whose map is changed in one place: it is then no match, whatever stands there. Its
 * graph has one match only. */
static const struct read_call *const changed_call = &read_calls[0];

/* What one place of that map may be changed to: each slot, the first number that is none,
 * those with a slot's number in the low byte, and those that are nearly 65535. */
static const unsigned other_images[] = {
    0, 1, 2, 3, 4, SLOTS, 256, 257, 258, 255, 65280, 65534, LG_NO_SLOT
};

/* Lengths that a map does not have. */
static const size_t bad_map_lengths[] = {0, 1, 30, 31, 33, 34};

enum { LONGEST_MAP = 34 };

#endif
