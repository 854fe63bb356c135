/* Blocks with one fault or more, and the number and the place that each is refused with.
 * The tests of the header and of the wrapper all make these calls. */
#ifndef LEAFGRAPH_FAULTS_H
#define LEAFGRAPH_FAULTS_H

#include <string.h>

#include "leafgraph.h"
#include "shared_constants.h"

/* The rule that makes one relu of two. */
static const uint8_t two_relus[80] = {
    'L', 'G', 'R', 0, 1, 0, 3, 1, 1, 0, 2, 255, 16, 255, 0, 0,
    0, 0, 0, 0, 255, 255, 255, 255, 255, 255, 255, 255, 255, 255, 255, 255,
    3, 7, 1, 0, 0, 255, 255, 255, 255, 255, 255, 255, 255, 255, 255, 255,
    3, 7, 1, 0, 1, 255, 255, 255, 255, 255, 255, 255, 255, 255, 255, 255,
    3, 7, 1, 0, 0, 255, 255, 255, 255, 255, 255, 255, 255, 255, 255, 255
};

/* What the number of a place counts, in the order of the wrapper's PlaceKind. */
enum counted { NOTHING, SLOT, OUTPUT, SOURCE_VERTEX, TARGET_VERTEX, NODE };

enum { CHANGES = 3, LONGEST_RULE = 104 };

/* Where a byte is changed, and into what. No fault needs byte 0: there the list ends. */
struct change {
    size_t at;
    uint8_t byte;
};

struct graph_fault {
    const char *what;
    struct table table;
    struct change changes[CHANGES];
    unsigned number;
    uint32_t place;
    enum counted counted;
};

struct rule_fault {
    const char *what;
    const uint8_t *rule;
    size_t rule_len;
    struct change changes[CHANGES];
    unsigned number;
    uint32_t place;
    enum counted counted;
};

#define IN_SLOT(slot, byte) (HEADER_LENGTH + RECORD_LENGTH * (slot) + (byte))
#define SOUND_TABLE {{2, NO_OUTPUT}, {SEVEN, VARIABLE, SUM, EMPTY, EMPTY}}

/* Both versions of the block have these. */
static const struct graph_fault graph_faults[] = {
    {"a version that is not there yet", SOUND_TABLE, {{4, 3}}, LG_BAD_GRAPH_HEADER, 0, NOTHING},
    {"the high byte of a version", SOUND_TABLE, {{5, 1}}, LG_BAD_GRAPH_HEADER, 0, NOTHING},
    {"an unused output place", SOUND_TABLE, {{14, 0}}, LG_BAD_GRAPH_HEADER, 0, NOTHING},
    {"the last byte of a graph", SOUND_TABLE, {{IN_SLOT(4, 47), 1}},
     LG_BAD_GRAPH_RECORD, 4, SLOT},
    {"the byte behind a count", SOUND_TABLE, {{IN_SLOT(2, 42), 1}},
     LG_BAD_GRAPH_RECORD, 2, SLOT},
    {"the lower of two bad records", SOUND_TABLE, {{IN_SLOT(3, 0), 6}, {IN_SLOT(1, 3), 4}},
     LG_BAD_GRAPH_RECORD, 1, SLOT},
    {"the lower of two bad inputs", {{0, NO_OUTPUT}, {VARIABLE, EMPTY, EMPTY, RELU_2, RELU_1}},
     {{0, 0}}, LG_BAD_GRAPH_NAME, 3, SLOT},
    {"a bad input in a low slot", {{0, 0}, {VARIABLE, RELU_2, EMPTY, EMPTY, EMPTY}},
     {{0, 0}}, LG_BAD_GRAPH_NAME, 1, SLOT},
    {"a bad input before a bad output", {{3, 4}, {VARIABLE, VARIABLE, RELU_1, EMPTY, EMPTY}},
     {{IN_SLOT(2, 4), 5}}, LG_BAD_GRAPH_NAME, 2, SLOT},
    {"the lower of two bad outputs", {{4, 3}, {VARIABLE, VARIABLE, RELU_1, EMPTY, EMPTY}},
     {{0, 0}}, LG_BAD_GRAPH_NAME, 0, OUTPUT},
    {"a bad output after a good one", {{2, 5}, {VARIABLE, VARIABLE, RELU_1, EMPTY, EMPTY}},
     {{0, 0}}, LG_BAD_GRAPH_NAME, 1, OUTPUT},
    {"a slot that reads itself", {{0, NO_OUTPUT}, {VARIABLE, RELU_1, EMPTY, EMPTY, EMPTY}},
     {{0, 0}}, LG_GRAPH_HAS_CYCLE, 1, SLOT},
    {"slots that hang from a cycle", {{0, NO_OUTPUT}, {RELU_1, RELU_2, RELU_2, EMPTY, EMPTY}},
     {{0, 0}}, LG_GRAPH_HAS_CYCLE, 2, SLOT},
    {"the lower of two cycles", {{0, NO_OUTPUT}, {RELU_1, RELU_0, RELU_2, EMPTY, EMPTY}},
     {{0, 0}}, LG_GRAPH_HAS_CYCLE, 0, SLOT},
    {"a header before all else", {{3, 4}, {RELU_0, RELU_2, EMPTY, EMPTY, EMPTY}},
     {{IN_SLOT(4, 0), 6}, {23, 1}}, LG_BAD_GRAPH_HEADER, 0, NOTHING},
    {"a record before an input", {{3, 4}, {RELU_0, RELU_2, EMPTY, EMPTY, EMPTY}},
     {{IN_SLOT(4, 0), 6}}, LG_BAD_GRAPH_RECORD, 4, SLOT},
    {"an output before a cycle", {{0, 4}, {RELU_0, EMPTY, EMPTY, EMPTY, EMPTY}},
     {{0, 0}}, LG_BAD_GRAPH_NAME, 1, OUTPUT}
};

/* Only version 2 has these. In SOUND_TABLE the counts are 1, 1, 1, 0 and 0. */
static const struct graph_fault count_faults[] = {
    {"version 1, for all but an import", SOUND_TABLE, {{4, 1}},
     LG_BAD_GRAPH_HEADER, 0, NOTHING},
    {"a count that is too low", SOUND_TABLE, {{IN_SLOT(1, 40), 0}},
     LG_BAD_GRAPH_COUNT, 1, SLOT},
    {"an output that is not counted", SOUND_TABLE, {{IN_SLOT(2, 40), 0}},
     LG_BAD_GRAPH_COUNT, 2, SLOT},
    {"a count that is too high", SOUND_TABLE, {{IN_SLOT(0, 40), 2}},
     LG_BAD_GRAPH_COUNT, 0, SLOT},
    {"the high byte of a count", SOUND_TABLE, {{IN_SLOT(0, 41), 1}},
     LG_BAD_GRAPH_COUNT, 0, SLOT},
    {"the count of an Empty slot", SOUND_TABLE, {{IN_SLOT(4, 40), 1}},
     LG_BAD_GRAPH_COUNT, 4, SLOT},
    {"readers and not places", {{2, NO_OUTPUT}, {SEVEN, VARIABLE, TWICE, EMPTY, EMPTY}},
     {{IN_SLOT(0, 40), 1}}, LG_BAD_GRAPH_COUNT, 0, SLOT},
    {"outputs and not their places", {{2, 2}, {SEVEN, VARIABLE, SUM, EMPTY, EMPTY}},
     {{IN_SLOT(2, 40), 1}}, LG_BAD_GRAPH_COUNT, 2, SLOT},
    {"the lower of two wrong counts", SOUND_TABLE, {{IN_SLOT(3, 40), 1}, {IN_SLOT(1, 40), 9}},
     LG_BAD_GRAPH_COUNT, 1, SLOT},
    {"a record before a count", SOUND_TABLE, {{IN_SLOT(0, 40), 9}, {IN_SLOT(2, 42), 1}},
     LG_BAD_GRAPH_RECORD, 2, SLOT},
    {"a cycle before a count", {{0, NO_OUTPUT}, {VARIABLE, RELU_1, EMPTY, EMPTY, EMPTY}},
     {{IN_SLOT(0, 40), 9}}, LG_GRAPH_HAS_CYCLE, 1, SLOT}
};

/* Only an import has these: it takes version 1 alone, and looks for no count there. */
static const struct graph_fault import_faults[] = {
    {"version 2, for an import", SOUND_TABLE, {{4, 2}}, LG_BAD_GRAPH_HEADER, 0, NOTHING},
    {"version 0", SOUND_TABLE, {{4, 0}}, LG_BAD_GRAPH_HEADER, 0, NOTHING},
    {"a true count in version 1", SOUND_TABLE, {{IN_SLOT(1, 40), 1}},
     LG_BAD_GRAPH_RECORD, 1, SLOT},
    {"the high byte of one", SOUND_TABLE, {{IN_SLOT(2, 41), 1}}, LG_BAD_GRAPH_RECORD, 2, SLOT},
    {"the lower of two in version 1", SOUND_TABLE, {{IN_SLOT(4, 40), 1}, {IN_SLOT(3, 43), 1}},
     LG_BAD_GRAPH_RECORD, 3, SLOT},
    {"version 2 before its records", SOUND_TABLE, {{4, 2}, {IN_SLOT(0, 0), 6}},
     LG_BAD_GRAPH_HEADER, 0, NOTHING}
};

/* In each of these rules there are three source vertices. */
#define IN_VERTEX(vertex, byte) (16 + 16 * (vertex) + (byte))
#define TWO_RELUS two_relus, sizeof two_relus
#define SUM_RULE sum_rule, sizeof sum_rule
#define TWO_CONSTS two_consts_rule, sizeof two_consts_rule

static const struct rule_fault rule_faults[] = {
    {"the version of a rule", TWO_RELUS, {{5, 1}}, LG_BAD_RULE_HEADER, 0, NOTHING},
    {"a source output past the source", TWO_RELUS, {{10, 3}}, LG_BAD_RULE_HEADER, 0, NOTHING},
    {"an unused target output place", TWO_RELUS, {{13, 0}}, LG_BAD_RULE_HEADER, 0, NOTHING},
    {"a source input that is not lower", TWO_RELUS, {{IN_VERTEX(1, 4), 1}},
     LG_BAD_RULE_RECORD, 1, SOURCE_VERTEX},
    {"a source record before a target record", SUM_RULE,
     {{IN_VERTEX(3, 0), 0}, {IN_VERTEX(2, 2), 3}}, LG_BAD_RULE_RECORD, 2, SOURCE_VERTEX},
    {"a target input that is not earlier", SUM_RULE, {{IN_VERTEX(4, 4), 17}},
     LG_BAD_RULE_RECORD, 4, TARGET_VERTEX},
    {"visiting order", SUM_RULE, {{10, 1}}, LG_BAD_RULE_ORDER, 0, SOURCE_VERTEX},
    {"a walk that ends early", TWO_RELUS, {{10, 1}}, LG_BAD_RULE_ORDER, 2, SOURCE_VERTEX},
    {"a target output that is no rule input", SUM_RULE, {{12, 1}},
     LG_BAD_RULE_OUTPUTS, 0, NOTHING},
    {"a target vertex that nothing names", SUM_RULE, {{IN_VERTEX(4, 4), 0}},
     LG_BAD_RULE_OUTPUTS, 0, NOTHING},
    {"the lower of two bad nodes", TWO_CONSTS, {{IN_VERTEX(4, 8), 8}, {IN_VERTEX(4, 1), 1}},
     LG_BAD_RULE_EXPRESSION, 0, NODE},
    {"any as an operand", TWO_CONSTS, {{IN_VERTEX(4, 8), 3}, {IN_VERTEX(4, 10), 0}},
     LG_BAD_RULE_EXPRESSION, 1, NODE},
    {"a node before a lower vertex", TWO_CONSTS, {{IN_VERTEX(0, 10), 1}, {IN_VERTEX(4, 9), 3}},
     LG_BAD_RULE_EXPRESSION, 1, NODE},
    {"an access that is not below", TWO_CONSTS, {{IN_VERTEX(0, 10), 1}},
     LG_BAD_RULE_EXPRESSION, 0, SOURCE_VERTEX},
    {"the lower of two bad uses", TWO_CONSTS, {{IN_VERTEX(1, 10), 2}, {IN_VERTEX(3, 10), 2}},
     LG_BAD_RULE_EXPRESSION, 1, SOURCE_VERTEX},
    {"any in a target", TWO_CONSTS, {{IN_VERTEX(3, 10), 0}},
     LG_BAD_RULE_EXPRESSION, 3, TARGET_VERTEX},
    {"outputs before an expression", SUM_RULE, {{12, 1}, {IN_VERTEX(5, 0), 8}},
     LG_BAD_RULE_OUTPUTS, 0, NOTHING}
};

static inline void put_changes(uint8_t *block, const struct change *changes) {
    size_t number;
    for (number = 0; number < CHANGES && changes[number].at != 0; number++) {
        block[changes[number].at] = changes[number].byte;
    }
}

/* Writes the refused block, TABLE_LENGTH bytes of a graph or rule_len of a rule. */
static inline void put_graph_fault(uint8_t *block, const struct graph_fault *fault) {
    put_table(block, &fault->table);
    put_changes(block, fault->changes);
}

/* The same as a block of version 1, for an import. */
static inline void put_import_fault(uint8_t *block, const struct graph_fault *fault) {
    put_table(block, &fault->table);
    make_version_1(block);
    put_changes(block, fault->changes);
}

static inline void put_rule_fault(uint8_t *block, const struct rule_fault *fault) {
    memcpy(block, fault->rule, fault->rule_len);
    put_changes(block, fault->changes);
}

#endif
