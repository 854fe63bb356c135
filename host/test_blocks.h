/* The calls that both header tests make, one of them as C, one as C++. */
#ifndef LEAFGRAPH_TEST_BLOCKS_H
#define LEAFGRAPH_TEST_BLOCKS_H

#include <stdio.h>
#include <string.h>

#include "faults.h"
#include "imports.h"
#include "leafgraph.h"
#include "listing.h"
#include "read_elsewhere.h"
#include "shared_constants.h"
#include "sweep_squeeze.h"

/* Names of the library's version 1, whose numbers 2 and 3 are gone. Were one of them still
 * in the header, this would not compile. */
enum { LG_BAD_GRAPH, LG_BAD_RULE };

/* The six attributes of records, each in four bytes. */
#define IMAGE_SIZE 1, 0, 0, 0, 3, 0, 0, 0, 8, 0, 0, 0, 8, 0, 0, 0, 1, 0, 0, 0, 0, 0, 0, 0
#define FOUR_ONES 1, 0, 0, 0, 1, 0, 0, 0, 1, 0, 0, 0, 1, 0, 0, 0, 0, 0, 0, 0, 0, 0, 0, 0
#define NO_ATTRIBUTES 0, 0, 0, 0, 0, 0, 0, 0, 0, 0, 0, 0, 0, 0, 0, 0, 0, 0, 0, 0, 0, 0, 0, 0

/* A graph of one slot: a Variable with the attributes 1 3 8 8 1, the output. Its count
 * is the first byte after them; what is left out is zero. */
static const uint8_t one_variable[72] = {
    'L', 'G', 'T', 0, 2, 0, 1, 0, 1, 0, 0, 0, 255, 255, 255, 255,
    255, 255, 0, 0, 0, 0, 0, 0,
    2, 0, 0, 5, 255, 255, 255, 255, 255, 255, 255, 255, 255, 255, 255, 255, IMAGE_SIZE, 1
};

/* E1: slots 0, 1 Variable; 2 conv2d(0,1); 3 relu(2); 4 relu(3); 5 Empty;
 * output 4. Each vertex is named once, so that its count is 1. What a row leaves out is
 * zero. */
static const struct {
    uint8_t header[24];
    uint8_t slots[6][48];
} e1 = {
    {'L', 'G', 'T', 0, 2, 0, 6, 0, 1, 0, 4, 0, 255, 255, 255, 255, 255, 255},
    {{2, 0, 0, 5, 255, 255, 255, 255, 255, 255, 255, 255, 255, 255, 255, 255, IMAGE_SIZE, 1},
     {2, 0, 0, 5, 255, 255, 255, 255, 255, 255, 255, 255, 255, 255, 255, 255, IMAGE_SIZE, 1},
     {3, 4, 2, 4, 0, 0, 1, 0, 255, 255, 255, 255, 255, 255, 255, 255, FOUR_ONES, 1},
     {3, 7, 1, 0, 2, 0, 255, 255, 255, 255, 255, 255, 255, 255, 255, 255, NO_ATTRIBUTES, 1},
     {3, 7, 1, 0, 3, 0, 255, 255, 255, 255, 255, 255, 255, 255, 255, 255, NO_ATTRIBUTES, 1},
     {0, 0, 0, 0, 255, 255, 255, 255, 255, 255, 255, 255, 255, 255, 255, 255}}
};

static const uint8_t *const e1_block = (const uint8_t *)&e1;

/* The map of P1: 2, 3, 4 and 65535 from there on. */
static const uint8_t p1_map[32] = {
    2, 0, 3, 0, 4, 0, 255, 255, 255, 255, 255, 255, 255, 255, 255, 255,
    255, 255, 255, 255, 255, 255, 255, 255, 255, 255, 255, 255, 255, 255,
    255, 255
};

enum { MAP_LENGTH = 32, UNTOUCHED = 0xaa };

/* What P1 leaves of E1: slot 3 is relu(2) as before, slot 4 is Empty as slot 5
 * is, and the output is slot 3. Each vertex is named once again. */
static void put_e1_after_p1(uint8_t *block) {
    memcpy(block, &e1, sizeof e1);
    memcpy(block + 24 + 48 * 4, e1.slots[5], 48);
    block[10] = 3;
}

/* 0 if the reply is exactly the number, the place and the value expected. */
static int reply_differs(const char *what, uint64_t reply, unsigned number, uint32_t place,
                         uint32_t value) {
    const int is_bad_graph = number >= 20 && number < 30;
    const int is_bad_rule = number >= 30 && number < 40;
    if (reply == ((uint64_t)value << 40 | (uint64_t)place << 8 | number)
        && lg_reply_number(reply) == number && lg_reply_place(reply) == place
        && lg_reply_value(reply) == value && lg_is_bad_graph(reply) == is_bad_graph
        && lg_is_bad_rule(reply) == is_bad_rule) {
        return 0;
    }
    printf("%s: number %u, place %lu, value %lu, expected number %u, place %lu, value %lu\n",
           what, lg_reply_number(reply), (unsigned long)lg_reply_place(reply),
           (unsigned long)lg_reply_value(reply), number, (unsigned long)place,
           (unsigned long)value);
    return 1;
}

/* The same with value 0. */
static int differs_at(const char *what, uint64_t reply, unsigned number, uint32_t place) {
    return reply_differs(what, reply, number, place, 0);
}

/* The same with place 0. */
static int differs(const char *what, uint64_t reply, unsigned expected) {
    return differs_at(what, reply, expected, 0);
}

/* A graph block is no rule block and the other way round; neither is a block
 * that is a byte short, or no bytes at all. */
static int count_differences(void) {
    uint8_t damaged[72];
    const size_t graph = sizeof one_variable, rule = sizeof two_relus;
    int count = 0;
    count += differs("graph", lg_check_graph(one_variable, graph), LG_DONE);
    count += differs("short graph", lg_check_graph(one_variable, graph - 1),
                     LG_BAD_GRAPH_HEADER);
    count += differs("no graph", lg_check_graph(one_variable, 0), LG_BAD_GRAPH_HEADER);
    count += differs("rule as graph", lg_check_graph(two_relus, rule),
                     LG_BAD_GRAPH_HEADER);
    count += differs("rule", lg_check_rule(two_relus, rule), LG_DONE);
    count += differs("short rule", lg_check_rule(two_relus, rule - 1),
                     LG_BAD_RULE_HEADER);
    count += differs("no rule", lg_check_rule(two_relus, 0), LG_BAD_RULE_HEADER);
    count += differs("graph as rule", lg_check_rule(one_variable, graph),
                     LG_BAD_RULE_HEADER);
    memcpy(damaged, one_variable, sizeof damaged);
    damaged[71] = 1;
    count += differs("damaged graph", lg_check_graph(damaged, sizeof damaged),
                     LG_BAD_GRAPH_RECORD);
    return count;
}

/* Looks for the two relus in a graph. The buffer is longer than a map: what is
 * past a map must stay on done, and every byte on a refusal. */
static int find_differs(const char *what, const uint8_t *graph, size_t graph_len,
                        size_t rule_len, size_t start, size_t map_len,
                        unsigned expected) {
    uint8_t map[MAP_LENGTH + 2], after[MAP_LENGTH + 2];
    int count;
    memset(map, UNTOUCHED, sizeof map);
    memcpy(after, map, sizeof after);
    if (expected == LG_DONE) {
        memcpy(after, p1_map, sizeof p1_map);
    }
    count = differs(what, lg_find_match(graph, graph_len, two_relus, rule_len,
                                        start, map, map_len), expected);
    if (memcmp(map, after, sizeof map) != 0) {
        printf("%s: the map is not what it should be\n", what);
        count++;
    }
    return count;
}

/* P1 and P2, the edges of start, and each refusal before those that follow. */
static int count_find_differences(void) {
    uint8_t miscounted[sizeof e1];
    const uint8_t *graph = e1_block;
    const size_t all = sizeof e1, rule = sizeof two_relus, map = MAP_LENGTH;
    int count = 0;
    count += find_differs("P1", graph, all, rule, 0, map, LG_DONE);
    count += find_differs("P2 from 4", graph, all, rule, 4, map, LG_DONE);
    count += find_differs("P2", graph, all, rule, 5, map, LG_NO_MATCH);
    count += find_differs("start 65535", graph, all, rule, 65535, map, LG_NO_MATCH);
    count += find_differs("start 65536", graph, all, rule, 65536, map, LG_NO_MATCH);
    count += find_differs("last start", graph, all, rule, SIZE_MAX, map, LG_NO_MATCH);
    count += find_differs("short rule", graph, all, rule - 1, 9, map, LG_BAD_RULE_HEADER);
    memcpy(miscounted, &e1, sizeof miscounted);
    put_count(miscounted, 0, 2);
    count += find_differs("wrong count", miscounted, all, rule - 1, 9, map, LG_BAD_GRAPH_COUNT);
    count += find_differs("short graph", graph, all - 1, rule - 1, 9, map, LG_BAD_GRAPH_HEADER);
    count += find_differs("short map", graph, all - 1, rule - 1, 9, map - 1,
                          LG_BAD_MAP_LENGTH);
    count += find_differs("long map", graph, all, rule, 0, map + 1, LG_BAD_MAP_LENGTH);
    count += find_differs("no map", graph, all, rule, 0, 0, LG_BAD_MAP_LENGTH);
    return count;
}

/* Rewrites E1, whose first output number is `output`, by the two relus. The
 * rule is writable memory here, and the buffers are longer than what is lent:
 * what is past it must stay on done, and every byte on a refusal. */
static int rewrite_differs(const char *what, uint8_t output, size_t graph_len,
                           size_t rule_len, size_t start, size_t map_len,
                           unsigned expected) {
    uint8_t graph[sizeof e1 + 1], graph_after[sizeof e1 + 1];
    uint8_t rule[sizeof two_relus], map[MAP_LENGTH + 2], map_after[MAP_LENGTH + 2];
    int count;
    memset(map, UNTOUCHED, sizeof map);
    memcpy(map_after, map, sizeof map);
    memcpy(graph, &e1, sizeof e1);
    graph[sizeof e1] = UNTOUCHED;
    graph[10] = output;
    put_counts(graph);
    memcpy(graph_after, graph, sizeof graph);
    memcpy(rule, two_relus, sizeof rule);
    if (expected == LG_DONE) {
        memcpy(map_after, p1_map, sizeof p1_map);
        put_e1_after_p1(graph_after);
    }
    count = differs(what, lg_rewrite(graph, graph_len, rule, rule_len, start,
                                     map, map_len), expected);
    if (memcmp(graph, graph_after, sizeof graph) != 0
        || memcmp(rule, two_relus, sizeof rule) != 0
        || memcmp(map, map_after, sizeof map) != 0) {
        printf("%s: lent bytes are not what they should be\n", what);
        count++;
    }
    return count;
}

/* P1, P2 and an inner relu that is a graph output, as in P3; and each refusal
 * before those that follow. */
static int count_rewrite_differences(void) {
    const size_t all = sizeof e1, rule = sizeof two_relus, map = MAP_LENGTH;
    int count = 0;
    count += rewrite_differs("rewriting P1", 4, all, rule, 0, map, LG_DONE);
    count += rewrite_differs("rewriting from 4", 4, all, rule, 4, map, LG_DONE);
    count += rewrite_differs("rewriting from 5", 4, all, rule, 5, map, LG_NO_MATCH);
    count += rewrite_differs("last start", 4, all, rule, SIZE_MAX, map, LG_NO_MATCH);
    count += rewrite_differs("inner relu as output", 3, all, rule, 0, map, LG_NO_MATCH);
    count += rewrite_differs("rewriting, short rule", 4, all, rule - 1, 9, map,
                             LG_BAD_RULE_HEADER);
    count += rewrite_differs("rewriting, bad output", 5, all, rule - 1, 9, map,
                             LG_BAD_GRAPH_NAME);
    count += rewrite_differs("rewriting, long graph", 4, all + 1, rule, 0, map,
                             LG_BAD_GRAPH_HEADER);
    count += rewrite_differs("rewriting, short map", 5, all, rule - 1, 9, map - 1,
                             LG_BAD_MAP_LENGTH);
    count += rewrite_differs("rewriting, no map", 4, all, rule, 0, 0, LG_BAD_MAP_LENGTH);
    return count;
}

/* What is lent to a question, in memory that could be written to. */
struct lent {
    uint8_t graph[sizeof e1], rule[LONGEST_RULE], map[LONGEST_MAP];
    size_t graph_len, rule_len, map_len;
};

static void lend(struct lent *lent, const uint8_t *graph, size_t graph_len,
                 const uint8_t *rule, size_t rule_len, const uint8_t *map) {
    memset(lent, UNTOUCHED, sizeof *lent);
    memcpy(lent->graph, graph, graph_len);
    memcpy(lent->rule, rule, rule_len);
    memcpy(lent->map, map, MAP_LENGTH);
    lent->graph_len = graph_len;
    lent->rule_len = rule_len;
    lent->map_len = MAP_LENGTH;
}

/* Asks whether the image of a vertex is read elsewhere. Whatever is said, no byte may
 * change. */
static int asked_differs(const char *what, const struct lent *lent, size_t vertex,
                         unsigned number, uint32_t place, uint32_t value) {
    struct lent after;
    int count;
    memcpy(&after, lent, sizeof after);
    count = reply_differs(what, lg_is_read_elsewhere(after.graph, after.graph_len, after.rule,
                                                     after.rule_len, after.map, after.map_len,
                                                     vertex), number, place, value);
    if (memcmp(&after, lent, sizeof after) != 0) {
        printf("%s: a question changed lent bytes\n", what);
        count++;
    }
    return count;
}

static int count_asked_differences(void) {
    uint8_t graph[TABLE_LENGTH], map[MAP_LENGTH];
    struct lent lent;
    size_t call;
    int count = 0;
    for (call = 0; call < sizeof read_calls / sizeof read_calls[0]; call++) {
        const struct read_call *asked = &read_calls[call];
        put_table(graph, &asked->table);
        put_images(map, asked);
        lend(&lent, graph, sizeof graph, asked->rule, asked->rule_len, map);
        count += asked_differs(asked->what, &lent, asked->vertex, asked->number, 0,
                               asked->value);
    }
    return count;
}

/* One place of a map changed, to whatever it may be: 65535 past the last source vertex and
 * the match's own number before are all that is taken. */
static int count_changed_map_differences(void) {
    uint8_t graph[TABLE_LENGTH], map[MAP_LENGTH];
    struct lent lent;
    size_t place, other;
    int count = 0;
    put_table(graph, &changed_call->table);
    put_images(map, changed_call);
    for (place = 0; place < MAP_PLACES; place++) {
        const unsigned right = map[2 * place] + 256U * map[2 * place + 1];
        for (other = 0; other < sizeof other_images / sizeof other_images[0]; other++) {
            const int same = other_images[other] == right;
            lend(&lent, graph, sizeof graph, changed_call->rule, changed_call->rule_len, map);
            put_image(lent.map, place, other_images[other]);
            count += asked_differs("a changed map", &lent, changed_call->vertex,
                                   same ? LG_DONE : LG_NOT_A_MATCH, 0,
                                   same ? changed_call->value : 0);
        }
    }
    return count;
}

/* A rule that wants a Const of this number. The graph's has 7. */
static int wanted_const_differs(uint8_t wanted, unsigned number, uint32_t value) {
    uint8_t graph[TABLE_LENGTH], map[MAP_LENGTH];
    struct lent lent;
    put_table(graph, &changed_call->table);
    put_images(map, changed_call);
    lend(&lent, graph, sizeof graph, sum_rule, sizeof sum_rule, map);
    lent.rule[96] = 1; /* its only node: a constant */
    lent.rule[100] = wanted;
    return asked_differs("a wanted Const", &lent, 2, number, 0, value);
}

/* P1's match, and each refusal before those that follow. */
static int count_asked_of_p1_differences(void) {
    struct lent lent;
    size_t length;
    int count = wanted_const_differs(7, LG_DONE, YES)
                + wanted_const_differs(8, LG_NOT_A_MATCH, 0);
    lend(&lent, e1_block, sizeof e1, two_relus, sizeof two_relus, p1_map);
    count += asked_differs("P1, interior", &lent, 1, LG_DONE, 0, NO);
    count += asked_differs("P1, output", &lent, 2, LG_DONE, 0, YES);
    count += asked_differs("P1, rule input", &lent, 0, LG_NO_SUCH_VERTEX, 0, 0);
    count += asked_differs("P1, no vertex", &lent, 3, LG_NO_SUCH_VERTEX, 0, 0);
    count += asked_differs("P1, last number", &lent, SIZE_MAX, LG_NO_SUCH_VERTEX, 0, 0);
    put_image(lent.map, 0, 1);
    count += asked_differs("no match of P1", &lent, 0, LG_NOT_A_MATCH, 0, 0);
    lent.rule_len--;
    count += asked_differs("asking, short rule", &lent, 0, LG_BAD_RULE_HEADER, 0, 0);
    put_count(lent.graph, 1, 2);
    count += asked_differs("asking, wrong count", &lent, 0, LG_BAD_GRAPH_COUNT, 1, 0);
    lent.graph_len--;
    count += asked_differs("asking, short graph", &lent, 0, LG_BAD_GRAPH_HEADER, 0, 0);
    for (length = 0; length < sizeof bad_map_lengths / sizeof bad_map_lengths[0]; length++) {
        lent.map_len = bad_map_lengths[length];
        count += asked_differs("asking, bad map length", &lent, 0, LG_BAD_MAP_LENGTH, 0, 0);
    }
    return count;
}

/* The map on done; else it must not be touched. */
static void put_constants_map(uint8_t *map, unsigned reply) {
    memset(map, reply == LG_DONE ? 255 : UNTOUCHED, MAP_LENGTH);
    if (reply == LG_DONE) {
        memcpy(map, constants_map, sizeof constants_map);
    }
}

/* Finds the match of a call with a Const, asks about its output, which is a graph output in
 * all of them, and rewrites there. A rewriting that has no room has a match all the same. */
static int constants_differ(const struct constants_call *call) {
    uint8_t graph[TABLE_LENGTH], after[TABLE_LENGTH];
    uint8_t map[MAP_LENGTH], map_after[MAP_LENGTH];
    struct lent lent;
    const unsigned found = call->reply == LG_NO_MATCH ? LG_NO_MATCH : LG_DONE;
    int count, same;
    put_table(graph, &call->before);
    put_table(after, &call->after);
    memset(map, UNTOUCHED, sizeof map);
    count = differs(call->what, lg_find_match(graph, sizeof graph, call->rule, call->rule_len,
                                              0, map, sizeof map), found);
    put_constants_map(map_after, found);
    same = memcmp(map, map_after, sizeof map) == 0;
    lend(&lent, graph, sizeof graph, call->rule, call->rule_len, map);
    count += asked_differs(call->what, &lent, 2, found == LG_DONE ? LG_DONE : LG_NOT_A_MATCH, 0,
                           found == LG_DONE ? YES : 0);
    memset(map, UNTOUCHED, sizeof map);
    count += differs(call->what, lg_rewrite(graph, sizeof graph, call->rule, call->rule_len,
                                            0, map, sizeof map), call->reply);
    put_constants_map(map_after, call->reply);
    same = same && memcmp(map, map_after, sizeof map) == 0;
    if (!same || memcmp(graph, after, sizeof graph) != 0) {
        printf("%s: lent bytes are not what they should be\n", call->what);
        count++;
    }
    return count;
}

static int count_constants_differences(void) {
    size_t call;
    int count = 0;
    for (call = 0; call < sizeof constants_calls / sizeof constants_calls[0]; call++) {
        count += constants_differ(&constants_calls[call]);
    }
    return count;
}

/* A bad graph and a good rule, or the other way round: a search, a rewriting and a question
 * refuse them as the check did, and keep every byte. */
static int calls_differ(const char *what, const uint8_t *graph, size_t graph_len,
                        const uint8_t *rule, size_t rule_len, unsigned number,
                        uint32_t place) {
    uint8_t lent[TABLE_LENGTH], map[MAP_LENGTH], untouched[MAP_LENGTH];
    struct lent asked;
    int count;
    memcpy(lent, graph, graph_len);
    memset(map, UNTOUCHED, sizeof map);
    memset(untouched, UNTOUCHED, sizeof untouched);
    count = differs_at(what, lg_find_match(lent, graph_len, rule, rule_len, 0, map, sizeof map),
                       number, place);
    count += differs_at(what, lg_rewrite(lent, graph_len, rule, rule_len, 0, map, sizeof map),
                        number, place);
    if (memcmp(lent, graph, graph_len) != 0 || memcmp(map, untouched, sizeof map) != 0) {
        printf("%s: lent bytes are not what they should be\n", what);
        count++;
    }
    lend(&asked, graph, graph_len, rule, rule_len, untouched);
    return count + asked_differs(what, &asked, SIZE_MAX, number, place, 0);
}

/* A sweep of a graph of SLOTS slots, which is refused or leaves `after`. What is past
 * the graph must stay. */
static int sweep_differs(const char *what, const uint8_t *graph, size_t graph_len,
                         const uint8_t *after, unsigned number, uint32_t place) {
    uint8_t lent[TABLE_LENGTH + 1];
    int count;
    memset(lent, UNTOUCHED, sizeof lent);
    memcpy(lent, graph, TABLE_LENGTH);
    count = differs_at(what, lg_sweep(lent, graph_len), number, place);
    if (memcmp(lent, after, TABLE_LENGTH) != 0 || lent[TABLE_LENGTH] != UNTOUCHED) {
        printf("%s: the swept graph is not what it should be\n", what);
        count++;
    }
    return count;
}

/* The same of a squeeze, whose list must be `moves` on done, and untouched on a refusal
 * and past its end. */
static int squeeze_differs(const char *what, const uint8_t *graph, size_t graph_len,
                           size_t moves_len, const uint8_t *after, const uint8_t *moves,
                           unsigned number, uint32_t place) {
    uint8_t lent[TABLE_LENGTH + 1], list[LONGEST_LIST], list_after[LONGEST_LIST];
    int count;
    memset(lent, UNTOUCHED, sizeof lent);
    memcpy(lent, graph, TABLE_LENGTH);
    memset(list, UNTOUCHED, sizeof list);
    memcpy(list_after, list, sizeof list);
    if (number == LG_DONE) {
        memcpy(list_after, moves, MOVES_LENGTH);
    }
    count = differs_at(what, lg_squeeze(lent, graph_len, list, moves_len), number, place);
    if (memcmp(lent, after, TABLE_LENGTH) != 0 || lent[TABLE_LENGTH] != UNTOUCHED
        || memcmp(list, list_after, sizeof list) != 0) {
        printf("%s: the squeezed graph or the list is not what it should be\n", what);
        count++;
    }
    return count;
}

/* A refused graph keeps every byte, and the graph's fault comes before the list's length. */
static int refusals_differ(const char *what, const uint8_t *graph, size_t graph_len,
                           unsigned number, uint32_t place) {
    return sweep_differs(what, graph, graph_len, graph, number, place)
           + squeeze_differs(what, graph, graph_len, MOVES_LENGTH, graph, NULL, number, place)
           + squeeze_differs(what, graph, graph_len, MOVES_LENGTH - 1, graph, NULL, number,
                             place);
}

static int count_sweep_differences(void) {
    uint8_t before[TABLE_LENGTH], after[TABLE_LENGTH];
    size_t call;
    int count = 0;
    for (call = 0; call < sizeof sweep_calls / sizeof sweep_calls[0]; call++) {
        const char *what = sweep_calls[call].what;
        put_table(before, &sweep_calls[call].before);
        put_table(after, &sweep_calls[call].after);
        count += sweep_differs(what, before, sizeof before, after, LG_DONE, 0);
        count += sweep_differs(what, after, sizeof after, after, LG_DONE, 0);
    }
    return count;
}

static int count_squeeze_differences(void) {
    uint8_t before[TABLE_LENGTH], after[TABLE_LENGTH], moves[MOVES_LENGTH];
    size_t call, length;
    int count = 0;
    for (call = 0; call < sizeof squeeze_calls / sizeof squeeze_calls[0]; call++) {
        const char *what = squeeze_calls[call].what;
        put_table(before, &squeeze_calls[call].before);
        put_table(after, &squeeze_calls[call].after);
        put_moves(moves, &squeeze_calls[call]);
        count += squeeze_differs(what, before, sizeof before, sizeof moves, after, moves,
                                 LG_DONE, 0);
        put_moves_again(moves, &squeeze_calls[call]);
        count += squeeze_differs(what, after, sizeof after, sizeof moves, after, moves,
                                 LG_DONE, 0);
    }
    for (length = 0; length < sizeof bad_moves_lengths / sizeof bad_moves_lengths[0]; length++) {
        count += squeeze_differs("a list of another length", before, sizeof before,
                                 bad_moves_lengths[length], before, NULL,
                                 LG_BAD_MOVES_LENGTH, 0);
    }
    count += refusals_differ("no graph to tidy", before, 0, LG_BAD_GRAPH_HEADER, 0);
    count += refusals_differ("a short graph to tidy", before, sizeof before - 1,
                             LG_BAD_GRAPH_HEADER, 0);
    return count;
}

/* An import of a graph of SLOTS slots, which is refused or leaves `after`. What is past
 * the graph must stay. */
static int import_differs(const char *what, const uint8_t *graph, size_t graph_len,
                          const uint8_t *after, unsigned number, uint32_t place) {
    uint8_t lent[TABLE_LENGTH + 1];
    int count;
    memset(lent, UNTOUCHED, sizeof lent);
    memcpy(lent, graph, TABLE_LENGTH);
    count = differs_at(what, lg_import(lent, graph_len), number, place);
    if (memcmp(lent, after, TABLE_LENGTH) != 0 || lent[TABLE_LENGTH] != UNTOUCHED) {
        printf("%s: the imported graph is not what it should be\n", what);
        count++;
    }
    return count;
}

/* What is imported is sound, and is not imported again. Before, it is for no other call. */
static int count_import_differences(void) {
    uint8_t before[TABLE_LENGTH], after[TABLE_LENGTH];
    const size_t length = TABLE_LENGTH;
    size_t call;
    int count = 0;
    for (call = 0; call < sizeof import_calls / sizeof import_calls[0]; call++) {
        const char *what = import_calls[call].what;
        put_import(before, after, &import_calls[call]);
        count += differs(what, lg_check_graph(before, length), LG_BAD_GRAPH_HEADER);
        count += import_differs(what, before, length, after, LG_DONE, 0);
        count += differs(what, lg_check_graph(after, length), LG_DONE);
        count += import_differs(what, after, length, after, LG_BAD_GRAPH_HEADER, 0);
        count += import_differs(what, before, length - 1, before, LG_BAD_GRAPH_HEADER, 0);
        count += import_differs(what, before, 0, before, LG_BAD_GRAPH_HEADER, 0);
    }
    return count;
}

/* Writes a graph's listing into a text buffer of this length. On done its first bytes are
 * `text`; on a refusal, and behind the listing, every byte is as it came. */
static int write_differs(const char *what, const uint8_t *graph, size_t graph_len,
                         size_t text_len, const char *text, size_t listing_len,
                         unsigned number, uint32_t place) {
    uint8_t lent[LONGEST_TEXT + 2], after[LONGEST_TEXT + 2];
    const uint32_t value = number == LG_DONE ? (uint32_t)listing_len : 0;
    int count;
    memset(lent, UNTOUCHED, sizeof lent);
    memcpy(after, lent, sizeof after);
    if (number == LG_DONE) {
        memcpy(after, text, listing_len);
    }
    count = reply_differs(what, lg_write_listing(graph, graph_len, lent, text_len),
                          number, place, value);
    if (memcmp(lent, after, sizeof lent) != 0) {
        printf("%s: the text buffer is not what it should be\n", what);
        count++;
    }
    return count;
}

/* Reads a text into a graph buffer of this length. On done it holds `graph`; on a refusal, and
 * past its end, every byte is as it came. */
static int read_differs(const char *what, const char *text, size_t text_len, size_t graph_len,
                        const uint8_t *graph, unsigned number, uint32_t place) {
    uint8_t bytes[LONGEST_TEXT + 2], lent[LONGEST_BUFFER + 1], after[LONGEST_BUFFER + 1];
    int count;
    memcpy(bytes, text, text_len);
    memset(lent, UNTOUCHED, sizeof lent);
    memcpy(after, lent, sizeof after);
    if (number == LG_DONE) {
        memcpy(after, graph, graph_len);
    }
    count = differs_at(what, lg_read_listing(bytes, text_len, lent, graph_len), number, place);
    if (memcmp(lent, after, sizeof lent) != 0 || memcmp(bytes, text, text_len) != 0) {
        printf("%s: lent bytes are not what they should be\n", what);
        count++;
    }
    return count;
}

/* A sound graph and its listing: each of them makes the other, in buffers of any length that
 * they may have. */
static int listing_differs(const char *what, const uint8_t *graph, size_t graph_len,
                           const char *text, size_t text_len) {
    return write_differs(what, graph, graph_len, text_len, text, text_len, LG_DONE, 0)
           + write_differs(what, graph, graph_len, text_len + 1, text, text_len, LG_DONE, 0)
           + write_differs(what, graph, graph_len, LONGEST_TEXT, text, text_len, LG_DONE, 0)
           + write_differs(what, graph, graph_len, text_len - 1, text, 0, LG_SHORT_TEXT, 0)
           + write_differs(what, graph, graph_len, 0, text, 0, LG_SHORT_TEXT, 0)
           + read_differs(what, text, text_len, graph_len, graph, LG_DONE, 0)
           + read_differs(what, text, text_len, graph_len - 1, graph, LG_BAD_BUFFER_LENGTH, 0)
           + read_differs(what, text, text_len, graph_len + 1, graph, LG_BAD_BUFFER_LENGTH, 0);
}

/* A listing that is cut at each of its bytes, in which one is changed to what no listing has,
 * or which has one more behind it. */
static int damaged_listings_differ(const char *text, size_t text_len) {
    char damaged[LONGEST_TEXT + 1];
    uint32_t at;
    int count = 0;
    for (at = 0; at < text_len; at++) {
        memcpy(damaged, text, text_len);
        damaged[at] = '!';
        count += read_differs("a cut listing", text, at, 0, NULL, LG_NOT_A_LISTING, at);
        count += read_differs("a changed byte", damaged, text_len, 0, NULL, LG_NOT_A_LISTING, at);
    }
    memcpy(damaged, text, text_len);
    damaged[text_len] = '\n';
    count += read_differs("a byte behind it", damaged, text_len + 1, TABLE_LENGTH, NULL,
                          LG_NOT_A_LISTING, (uint32_t)text_len);
    return count;
}

static int count_listing_differences(void) {
    uint8_t graph[TABLE_LENGTH];
    const size_t kinds = sizeof kinds_text - 1;
    size_t call, length;
    int count = listing_differs("all kinds", (const uint8_t *)&kinds_graph, KINDS_LENGTH,
                                kinds_text, kinds)
                + damaged_listings_differ(kinds_text, kinds);
    for (call = 0; call < sizeof listing_calls / sizeof listing_calls[0]; call++) {
        const struct listing_call *listed = &listing_calls[call];
        put_table(graph, &listed->table);
        count += listing_differs(listed->what, graph, sizeof graph, listed->text,
                                 listed->text_len);
        count += damaged_listings_differ(listed->text, listed->text_len);
    }
    for (length = 0; length < sizeof bad_buffer_lengths / sizeof bad_buffer_lengths[0];
         length++) {
        count += read_differs("a graph buffer of another length", listing_calls[0].text,
                              listing_calls[0].text_len, bad_buffer_lengths[length], NULL,
                              LG_BAD_BUFFER_LENGTH, 0);
    }
    return count;
}

/* Texts that are refused, whatever the length of the graph buffer is. */
static int count_text_fault_differences(void) {
    size_t fault;
    int count = 0;
    for (fault = 0; fault < sizeof text_faults / sizeof text_faults[0]; fault++) {
        const struct text_fault *bad = &text_faults[fault];
        count += read_differs(bad->what, bad->text, bad->text_len, TABLE_LENGTH, NULL,
                              LG_NOT_A_LISTING, bad->place);
        count += read_differs(bad->what, bad->text, bad->text_len, 0, NULL, LG_NOT_A_LISTING,
                              bad->place);
    }
    for (fault = 0; fault < sizeof unsound_listings / sizeof unsound_listings[0]; fault++) {
        const char *what = unsound_listings[fault].what, *text = unsound_listings[fault].text;
        const size_t length = unsound_listings[fault].text_len;
        count += read_differs(what, text, length, HEADER_LENGTH + RECORD_LENGTH, NULL,
                              LG_UNSOUND_GRAPH, 0);
        count += read_differs(what, text, length, 1, NULL, LG_UNSOUND_GRAPH, 0);
    }
    return count;
}

static int import_fault_differs(const struct graph_fault *fault) {
    uint8_t graph[TABLE_LENGTH];
    put_import_fault(graph, fault);
    return import_differs(fault->what, graph, sizeof graph, graph, fault->number, fault->place);
}

static int graph_fault_differs(const struct graph_fault *fault) {
    uint8_t graph[TABLE_LENGTH];
    put_graph_fault(graph, fault);
    return differs_at(fault->what, lg_check_graph(graph, sizeof graph), fault->number,
                      fault->place)
           + calls_differ(fault->what, graph, sizeof graph, two_relus, sizeof two_relus,
                          fault->number, fault->place)
           + refusals_differ(fault->what, graph, sizeof graph, fault->number, fault->place)
           + write_differs(fault->what, graph, sizeof graph, LONGEST_TEXT, NULL, 0,
                           fault->number, fault->place)
           + write_differs(fault->what, graph, sizeof graph, 0, NULL, 0, fault->number,
                           fault->place);
}

static int rule_fault_differs(const struct rule_fault *fault) {
    uint8_t rule[LONGEST_RULE];
    put_rule_fault(rule, fault);
    return differs_at(fault->what, lg_check_rule(rule, fault->rule_len), fault->number,
                      fault->place)
           + calls_differ(fault->what, one_variable, sizeof one_variable, rule,
                          fault->rule_len, fault->number, fault->place);
}

static int count_fault_differences(void) {
    size_t fault;
    int count = 0;
    for (fault = 0; fault < sizeof graph_faults / sizeof graph_faults[0]; fault++) {
        count += graph_fault_differs(&graph_faults[fault]);
        count += import_fault_differs(&graph_faults[fault]);
    }
    for (fault = 0; fault < sizeof count_faults / sizeof count_faults[0]; fault++) {
        count += graph_fault_differs(&count_faults[fault]);
    }
    for (fault = 0; fault < sizeof import_faults / sizeof import_faults[0]; fault++) {
        count += import_fault_differs(&import_faults[fault]);
    }
    for (fault = 0; fault < sizeof rule_faults / sizeof rule_faults[0]; fault++) {
        count += rule_fault_differs(&rule_faults[fault]);
    }
    return count;
}

/* The helpers on a reply with every part filled, and at the edges of the numbers that
 * are about a block. */
static int count_helper_differences(void) {
    const uint64_t rest = ((uint64_t)0xabcdef << 40) | ((uint64_t)0x89abcdef << 8);
    return (lg_reply_number(rest | 0x17) == 0x17 ? 0 : 1)
           + (lg_reply_place(rest | 0x17) == 0x89abcdef ? 0 : 1)
           + (lg_reply_value(rest | 0x17) == 0xabcdef ? 0 : 1)
           + (lg_is_bad_graph(rest | 20) && lg_is_bad_graph(rest | 29) ? 0 : 1)
           + (!lg_is_bad_graph(rest | 19) && !lg_is_bad_graph(rest | 30) ? 0 : 1)
           + (lg_is_bad_rule(rest | 30) && lg_is_bad_rule(rest | 39) ? 0 : 1)
           + (!lg_is_bad_rule(rest | 29) && !lg_is_bad_rule(rest | 40) ? 0 : 1)
           + (!lg_is_bad_graph(rest | 2) && !lg_is_bad_rule(rest | 3) ? 0 : 1);
}

#endif
