/* The header promises that a rewriting uses at most 96 KiB of stack, and any
 * other call at most 64 KiB. Each call is made on a stack of its own whose
 * bytes are all the same before; what differs after shows how deep it went. The
 * blocks are the largest, with the longest chains, so that every loop and every
 * recursion is at its deepest: sound ones, and graphs with a cycle, whose lowest
 * slot has to be found. The texts that are read are the listings of these, and the
 * longest one. */

#define _GNU_SOURCE
#include <pthread.h>
#include <stdint.h>
#include <stdio.h>
#include <stdlib.h>
#include <string.h>

#include "counts.h"
#include "leafgraph.h"

enum {
    PROMISED = 64 * 1024,
    PROMISED_REWRITING = 96 * 1024,
    STACK = 1024 * 1024,
    FILL = 0xa5,
    SLOTS = 512,
    SIDE = 16,
    NODES = 64,
    PLACES = 6
};

static uint8_t graph[24 + 48 * SLOTS];
static uint8_t rewritten[sizeof graph];
static uint8_t moves[2 * SLOTS];
static uint8_t rule[16 + 16 * (SIDE + SIDE) + 8 * NODES];
static uint8_t pair_rule[sizeof rule];
static uint8_t match[LG_MAP_LENGTH];
static uint8_t pair_match[sizeof match];
static uint8_t text[LG_LISTING_ROOM];
static size_t text_length;

/* Kind, operator and counts, and these input numbers, the last one in the last
 * place. */
static void put_slot(size_t slot, const char head[4], unsigned input, unsigned last) {
    uint8_t *record = graph + 24 + 48 * slot;
    size_t place, count = (size_t)head[2];
    memcpy(record, head, 4);
    memset(record + 4, 255, 2 * PLACES);
    for (place = 0; place < count; place++) {
        unsigned number = place + 1 == count ? last : input;
        record[4 + 2 * place] = (uint8_t)(number % 256);
        record[5 + 2 * place] = (uint8_t)(number / 256);
    }
}

/* Slot 511 a Variable, slot 510 a cast of it, slot 0 a relu of it, slot 1
 * Empty, each other slot a Tuple of five times the Variable and then the next
 * slot: the cycle test goes through all slots before it can finish one, and a
 * search for a chain goes down through the last of six inputs each time. A
 * match removes 15 vertices; with the Empty slot there is room for 16. */
static void build_graph(void) {
    size_t slot;
    memcpy(graph, "LGT\0\2\0\0\2\1\0\2\0\377\377\377\377\377\377", 18);
    put_slot(0, "\3\7\1", SLOTS - 1, SLOTS - 1);
    put_slot(1, "\0\0\0", 0, 0);
    for (slot = 2; slot < SLOTS - 2; slot++) {
        put_slot(slot, "\4\0\6", SLOTS - 1, (unsigned)slot + 1);
    }
    put_slot(SLOTS - 2, "\3\16\1\1", SLOTS - 1, SLOTS - 1);
    put_slot(SLOTS - 1, "\2\0\0\5", 0, 0);
    put_counts(graph);
}

static void put_pattern(uint8_t *record, const char head[4], size_t input, size_t last) {
    memset(record, 255, 16);
    memcpy(record, head, 4);
    memset(record + 4, (int)input, (size_t)head[2]);
    if (head[2] != 0) {
        record[3 + head[2]] = (uint8_t)last;
    }
    if (head[3] != 0) {
        record[10] = NODES - 1;
    }
}

/* The source: a wildcard; with two outputs a relu of it, the first output; a
 * cast of the wildcard; and Tuples of five times the wildcard and then the
 * vertex before. The target: a chain of casts. Each cast has the last node as
 * its attribute; each node but the first, which is zero, is the sum of the one
 * before with itself. So one output's match is 15 vertices deep, and the
 * attribute at its end 64 nodes; with two outputs, 14 within the search for
 * the second. */
static void build_rule(uint8_t *block, size_t outputs) {
    uint8_t *records = block + 16, *nodes = records + 16 * (SIDE + SIDE);
    size_t index;
    memcpy(block, "LGR\0\1\0\20\20\1\100\17\377\37\377", 14);
    put_pattern(records, "\0\0\0", 0, 0);
    if (outputs == 2) {
        memcpy(block + 8, "\2\100\1\17\37\37", 6);
        put_pattern(records + 16, "\3\7\1", 0, 0);
    }
    put_pattern(records + 16 * outputs, "\3\16\1\1", 0, 0);
    for (index = outputs + 1; index < SIDE; index++) {
        put_pattern(records + 16 * index, "\4\0\6", 0, index - 1);
    }
    for (index = SIDE; index < SIDE + SIDE; index++) {
        put_pattern(records + 16 * index, "\3\16\1\1", 0, index == SIDE ? 0 : index - 1);
    }
    for (index = 0; index < NODES; index++) {
        nodes[8 * index] = index == 0 ? 1 : 3;
        nodes[8 * index + 1] = nodes[8 * index + 2] = (uint8_t)(index == 0 ? 0 : index - 1);
    }
}

static void *check_graph(void *reply) {
    *(uint64_t *)reply = lg_check_graph(graph, sizeof graph);
    return NULL;
}

static void *check_rule(void *reply) {
    *(uint64_t *)reply = lg_check_rule(rule, sizeof rule);
    return NULL;
}

static void *find_match(void *reply) {
    uint8_t map[32];
    *(uint64_t *)reply = lg_find_match(graph, sizeof graph, rule, sizeof rule, 0, map, sizeof map);
    return NULL;
}

static void *find_pair(void *reply) {
    uint8_t map[32];
    *(uint64_t *)reply = lg_find_match(graph, sizeof graph, pair_rule, sizeof pair_rule, 0,
                                       map, sizeof map);
    return NULL;
}

/* Both ask about the last vertex between inputs and outputs, and only the match reads it:
 * the reply is done with the value 0. The matches are found outside the calls that are
 * measured (show_questions). */
static void *ask(void *reply) {
    *(uint64_t *)reply = lg_is_read_elsewhere(graph, sizeof graph, rule, sizeof rule,
                                              match, sizeof match, SIDE - 2);
    return NULL;
}

static void *ask_pair(void *reply) {
    *(uint64_t *)reply = lg_is_read_elsewhere(graph, sizeof graph, pair_rule, sizeof pair_rule,
                                              pair_match, sizeof pair_match, SIDE - 2);
    return NULL;
}

/* The graph is copied outside the call that is measured (show, show_cycles), here and
 * where it is swept, squeezed or imported. */
static void *rewrite(void *reply) {
    uint8_t map[32];
    *(uint64_t *)reply = lg_rewrite(rewritten, sizeof rewritten, rule, sizeof rule, 0,
                                    map, sizeof map);
    return NULL;
}

static void *rewrite_pair(void *reply) {
    uint8_t map[32];
    *(uint64_t *)reply = lg_rewrite(rewritten, sizeof rewritten, pair_rule, sizeof pair_rule, 0,
                                    map, sizeof map);
    return NULL;
}

static void *sweep(void *reply) {
    *(uint64_t *)reply = lg_sweep(rewritten, sizeof rewritten);
    return NULL;
}

static void *squeeze(void *reply) {
    *(uint64_t *)reply = lg_squeeze(rewritten, sizeof rewritten, moves, sizeof moves);
    return NULL;
}

static void *import(void *reply) {
    *(uint64_t *)reply = lg_import(rewritten, sizeof rewritten);
    return NULL;
}

static void *write_listing(void *reply) {
    *(uint64_t *)reply = lg_write_listing(graph, sizeof graph, text, sizeof text);
    return NULL;
}

static void *read_listing(void *reply) {
    *(uint64_t *)reply = lg_read_listing(text, text_length, rewritten, sizeof rewritten);
    return NULL;
}

/* Graphs with a cycle: in each slot a Tuple of six times the next slot, and in the
 * last of that chain one of the slot where the cycle begins. The slots before it
 * hang from it. Slots are chained upwards, or downwards. */
static const struct {
    unsigned begins; /* in the chain */
    int upwards;
    uint32_t lowest; /* slot on the cycle */
} cycles[] = {
    {0, 1, 0},                     /* all slots are on it */
    {SLOTS - 2, 1, SLOTS - 2},     /* all but the last two hang from it */
    {SLOTS - 1, 1, SLOTS - 1},     /* the last one reads itself */
    {SLOTS / 2, 1, SLOTS / 2},
    {SLOTS - 2, 0, 0},
    {SLOTS / 2, 0, 0}
};

static void build_cycle(size_t which) {
    unsigned link, slot, next;
    for (link = 0; link < SLOTS; link++) {
        next = link + 1 == SLOTS ? cycles[which].begins : link + 1;
        slot = link;
        if (!cycles[which].upwards) {
            slot = SLOTS - 1 - slot;
            next = SLOTS - 1 - next;
        }
        put_slot(slot, "\4\0\6", next, next);
    }
}

/* Makes the text the listing of such a graph, which lg_write_listing refuses. */
static void put_cycle_text(void) {
    unsigned slot;
    char *at = (char *)text;
    at += sprintf(at, "graph %d\n", SLOTS);
    for (slot = 0; slot < SLOTS; slot++) {
        const unsigned next = graph[record_of(slot) + 4] + 256U * graph[record_of(slot) + 5];
        at += sprintf(at, "%u tuple [%u %u %u %u %u %u] {}\n", slot, next, next, next, next,
                      next, next);
    }
    at += sprintf(at, "out 0\n");
    text_length = (size_t)(at - (char *)text);
}

/* How many bytes of a stack the call used, or 0 where its reply was not the one
 * expected. What a thread needs of its own is part of the figure. */
static size_t used_by(void *(*call)(void *), uint64_t expected) {
    uint64_t reply = ~expected;
    size_t untouched = 0;
    pthread_t thread;
    pthread_attr_t attributes;
    uint8_t *stack = aligned_alloc(4096, STACK);
    if (stack == NULL) {
        return 0;
    }
    memset(stack, FILL, STACK);
    pthread_attr_init(&attributes);
    pthread_attr_setstack(&attributes, stack, STACK);
    if (pthread_create(&thread, &attributes, call, &reply) != 0) {
        return 0;
    }
    pthread_join(thread, NULL);
    while (untouched < STACK && stack[untouched] == FILL) {
        untouched++;
    }
    free(stack);
    return reply == expected ? STACK - untouched : 0;
}

static int judged(const char *what, size_t used, size_t promised) {
    printf("stack: %s %zu bytes of %zu\n", what, used, promised);
    return used != 0 && used <= promised ? 0 : 1;
}

/* Prints what a call used; 0 if its reply was done and it kept the promise. */
static int show(const char *what, void *(*call)(void *), size_t promised) {
    memcpy(rewritten, graph, sizeof graph);
    return judged(what, used_by(call, LG_DONE), promised);
}

/* The same of questions about both rules' matches. Not finding one is not the reply that was
 * expected, either. */
static int show_questions(void) {
    const uint64_t found = lg_find_match(graph, sizeof graph, rule, sizeof rule, 0,
                                         match, sizeof match)
                           | lg_find_match(graph, sizeof graph, pair_rule, sizeof pair_rule, 0,
                                           pair_match, sizeof pair_match);
    return (found == LG_DONE ? 0 : 1)
           + show("asking whether a slot is read elsewhere", ask, PROMISED)
           + show("asking with two outputs", ask_pair, PROMISED);
}

/* The same of a sweep in which the chain of all Tuples stays, and of one in which it goes:
 * then the output is the Variable at its end. */
static int show_sweeps(void) {
    int wrong = show("sweeping a graph where the chain stays", sweep, PROMISED);
    graph[10] = (SLOTS - 1) % 256;
    graph[11] = (SLOTS - 1) / 256;
    put_counts(graph);
    wrong += show("sweeping one where it goes", sweep, PROMISED);
    build_graph();
    return wrong;
}

/* Makes the graph one of as many bytes of text as there can be: Variables with the
 * longest numbers. */
static void build_longest(void) {
    size_t slot, place;
    for (slot = 0; slot < SLOTS; slot++) {
        put_slot(slot, "\2\0\0\5", 0, 0);
        for (place = 0; place < 5; place++) {
            memcpy(graph + record_of(slot) + 16 + 4 * place, "\0\0\0\200", 4);
        }
    }
    memcpy(graph + 8, "\4\0\377\1\377\1\377\1\377\1", 10);
    put_counts(graph);
}

/* The same of the graph's listing: written, read, and read where it is cut before its last
 * byte, so that all of it but that is looked at in vain. What is read is the graph again. */
static int show_listing(const char *writing, const char *reading, const char *cut) {
    int wrong;
    text_length = lg_reply_value(lg_write_listing(graph, sizeof graph, text, sizeof text));
    wrong = judged(writing, used_by(write_listing, (uint64_t)text_length << 40), PROMISED);
    memset(rewritten, 0, sizeof rewritten);
    wrong += judged(reading, used_by(read_listing, LG_DONE), PROMISED);
    wrong += memcmp(rewritten, graph, sizeof graph) == 0 ? 0 : 1;
    text_length--;
    return wrong + judged(cut, used_by(read_listing, (uint64_t)text_length << 8
                                                     | LG_NOT_A_LISTING), PROMISED);
}

static int show_listings(void) {
    int wrong = show_listing("writing a listing", "reading one", "reading one that is cut");
    build_longest();
    wrong += show_listing("writing the longest listing", "reading it", "reading it when it is cut");
    memset(graph, 0, sizeof graph); /* no attribute is left, and no output */
    build_graph();
    return wrong;
}

/* Prints the most that a call used on the graphs with a cycle; 0 if each time it gave
 * the reply of this number, with the cycle's lowest slot where it names a place, and kept
 * the promise. */
static int show_cycles_refused(const char *what, void *(*call)(void *), size_t promised,
                               unsigned number) {
    size_t which, used, most = 0;
    for (which = 0; which < sizeof cycles / sizeof cycles[0]; which++) {
        const uint64_t lowest = number == LG_GRAPH_HAS_CYCLE ? cycles[which].lowest : 0;
        build_cycle(which);
        put_cycle_text();
        memcpy(rewritten, graph, sizeof graph);
        used = used_by(call, lowest << 8 | number);
        if (used == 0) {
            return judged(what, 0, promised);
        }
        most = used > most ? used : most;
    }
    return judged(what, most, promised);
}

static int show_cycles(const char *what, void *(*call)(void *), size_t promised) {
    return show_cycles_refused(what, call, promised, LG_GRAPH_HAS_CYCLE);
}

int main(void) {
    int wrong = 0;
    build_graph();
    build_rule(rule, 1);
    build_rule(pair_rule, 2);
    wrong += show("checking a graph", check_graph, PROMISED);
    wrong += show("checking a rule", check_rule, PROMISED);
    wrong += show("finding a match", find_match, PROMISED);
    wrong += show("finding a match with two outputs", find_pair, PROMISED);
    wrong += show_questions();
    wrong += show("rewriting", rewrite, PROMISED_REWRITING);
    wrong += show("rewriting with two outputs", rewrite_pair, PROMISED_REWRITING);
    wrong += show_sweeps();
    wrong += show("squeezing", squeeze, PROMISED);
    wrong += show_listings();
    wrong += show_cycles("checking a graph with a cycle", check_graph, PROMISED);
    wrong += show_cycles("finding a match in one", find_match, PROMISED);
    wrong += show_cycles("asking about a slot of one", ask, PROMISED);
    wrong += show_cycles("rewriting one", rewrite, PROMISED_REWRITING);
    wrong += show_cycles("sweeping one", sweep, PROMISED);
    wrong += show_cycles("squeezing one", squeeze, PROMISED);
    wrong += show_cycles("writing the listing of one", write_listing, PROMISED);
    wrong += show_cycles_refused("reading the listing of one", read_listing, PROMISED,
                                 LG_UNSOUND_GRAPH);
    build_graph();
    make_version_1(graph);
    wrong += show("importing", import, PROMISED);
    wrong += show_cycles("importing one with a cycle", import, PROMISED);
    if (wrong != 0) {
        puts("stack test: more than promised, or not the reply that was expected");
    }
    return wrong == 0 ? 0 : 1;
}
