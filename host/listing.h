/* Graphs and their listings, said here by hand; texts that are no listing, with the place at
 * which none can go on; and listings of graphs that are not sound. The tests of the header and
 * of the wrapper all make these calls. */
#ifndef LEAFGRAPH_LISTING_H
#define LEAFGRAPH_LISTING_H

#include <string.h>

#include "leafgraph.h"
#include "shared_constants.h"

/* A text and its length: no zero byte ends it, and it may have some. */
#define TEXT(text) text, sizeof text - 1

struct listing_call {
    const char *what;
    struct table table;
    const char *text;
    size_t text_len;
};

static const struct listing_call listing_calls[] = {
    {"Empty slots behind", {{2, NO_OUTPUT}, {SEVEN, VARIABLE, SUM, EMPTY, EMPTY}},
     TEXT("graph 5\n0 const [] {7}\n1 variable [] {1 0 0 0 0}\n2 call 1 [1 0] {}\nout 2\n")},
    {"Empty slots before and between", {{4, 1}, {EMPTY, SEVEN, EMPTY, VARIABLE, SUM_3_1}},
     TEXT("graph 5\n1 const [] {7}\n3 variable [] {1 0 0 0 0}\n4 call 1 [3 1] {}\nout 4 1\n")},
    {"no Empty slot, and no order of the edges",
     {{0, 0}, {RELU_2, SEVEN, RELU_1, RELU_0, RELU_2}},
     TEXT("graph 5\n0 call 7 [2] {}\n1 const [] {7}\n2 call 7 [1] {}\n3 call 7 [0] {}\n"
          "4 call 7 [2] {}\nout 0 0\n")},
    {"the last slot alone", {{4, NO_OUTPUT}, {EMPTY, EMPTY, EMPTY, EMPTY, VARIABLE}},
     TEXT("graph 5\n4 variable [] {1 0 0 0 0}\nout 4\n")}
};

/* The kinds that those have not, each field at an end of its range, and four outputs. Of a
 * record the counts of places that name it follow its attributes. */
enum { KINDS_SLOTS = 4, KINDS_LENGTH = HEADER_LENGTH + RECORD_LENGTH * KINDS_SLOTS };

static const struct {
    uint8_t header[HEADER_LENGTH];
    uint8_t slots[KINDS_SLOTS][RECORD_LENGTH];
} kinds_graph = {
    {'L', 'G', 'T', 0, 2, 0, KINDS_SLOTS, 0, 4, 0, 3, 0, 0, 0, 2, 0, 3, 0},
    {{1, 0, 0, 1, 255, 255, 255, 255, 255, 255, 255, 255, 255, 255, 255, 255, 0, 0, 0, 128,
      0, 0, 0, 0, 0, 0, 0, 0, 0, 0, 0, 0, 0, 0, 0, 0, 0, 0, 0, 0, 8},
     {4, 0, 6, 0, 0, 0, 0, 0, 0, 0, 0, 0, 0, 0, 0, 0, 0, 0, 0, 0,
      0, 0, 0, 0, 0, 0, 0, 0, 0, 0, 0, 0, 0, 0, 0, 0, 0, 0, 0, 0, 1},
     {5, 0, 1, 1, 1, 0, 255, 255, 255, 255, 255, 255, 255, 255, 255, 255, 255, 255, 255, 127,
      0, 0, 0, 0, 0, 0, 0, 0, 0, 0, 0, 0, 0, 0, 0, 0, 0, 0, 0, 0, 2},
     {3, 5, 2, 1, 2, 0, 0, 0, 255, 255, 255, 255, 255, 255, 255, 255, 255, 255, 255, 255,
      0, 0, 0, 0, 0, 0, 0, 0, 0, 0, 0, 0, 0, 0, 0, 0, 0, 0, 0, 0, 2}}
};

static const char kinds_text[] =
    "graph 4\n0 const [] {-2147483648}\n1 tuple [0 0 0 0 0 0] {}\n2 proj [1] {2147483647}\n"
    "3 call 5 [2 0] {-1}\nout 3 0 2 3\n";

/* Texts that are no listing. */
struct text_fault {
    const char *what;
    const char *text;
    size_t text_len;
    uint32_t place;
};

static const struct text_fault text_faults[] = {
    {"no text", TEXT(""), 0},
    {"another first word", TEXT("grape 3\n"), 4},
    {"a block", TEXT("LGT"), 0},
    {"two spaces", TEXT("graph  3\n"), 6},
    {"no slots", TEXT("graph 0\nout 0\n"), 6},
    {"too many slots", TEXT("graph 513\nout 0\n"), 8},
    {"a leading zero", TEXT("graph 03\n"), 6},
    {"a carriage return", TEXT("graph 3\r\n"), 7},
    {"a zero byte", TEXT("graph 3\0\n"), 7},
    {"a slot that is not there", TEXT("graph 3\n3 const [] {1}\nout 3\n"), 8},
    {"a slot twice", TEXT("graph 3\n0 const [] {1}\n0 const [] {1}\nout 0\n"), 23},
    {"a slot that begins as two that ascend", TEXT("graph 12\n5 const [] {1}\n1 const"), 25},
    {"a slot that begins as none", TEXT("graph 12\n5 const [] {1}\n2 const"), 24},
    {"a slot after the last one", TEXT("graph 3\n2 const [] {1}\n1 const"), 23},
    {"a word that goes on", TEXT("graph 3\n0 constant [] {1}"), 15},
    {"a wildcard", TEXT("graph 3\n0 wildcard [] {}"), 10},
    {"an operator of another kind", TEXT("graph 3\n0 const 1"), 16},
    {"an operator by name", TEXT("graph 3\n0 call relu [0] {}"), 15},
    {"operator 0", TEXT("graph 3\n0 call 0"), 15},
    {"operator 15", TEXT("graph 3\n0 call 15 [0] {}"), 16},
    {"an input of a Const", TEXT("graph 3\n0 const [1"), 17},
    {"an input too many", TEXT("graph 3\n0 call 7 [0 1] {}"), 19},
    {"an input too few", TEXT("graph 3\n0 call 1 [0] {}"), 19},
    {"a Tuple of none", TEXT("graph 3\n0 tuple [] {}"), 17},
    {"a Tuple of seven", TEXT("graph 3\n0 tuple [0 0 0 0 0 0 0] {}"), 28},
    {"a negative input", TEXT("graph 3\n0 call 7 [-1] {}"), 18},
    {"an input that is no 16-bit number", TEXT("graph 3\n0 call 7 [65536] {}"), 22},
    {"an input with a leading zero", TEXT("graph 3\n0 call 7 [00] {}"), 19},
    {"an attribute too few", TEXT("graph 3\n0 variable [] {1 3 8 8}"), 30},
    {"an attribute too many", TEXT("graph 3\n0 const [] {1 2}"), 21},
    {"an attribute too large", TEXT("graph 3\n0 const [] {2147483648}"), 29},
    {"an attribute too small", TEXT("graph 3\n0 const [] {-2147483649}"), 30},
    {"a minus before zero", TEXT("graph 3\n0 const [] {-0}"), 21},
    {"a plus", TEXT("graph 3\n0 const [] {+1}"), 20},
    {"no outputs", TEXT("graph 3\n0 const [] {1}\nout \n"), 27},
    {"five outputs", TEXT("graph 3\n0 const [] {1}\nout 0 0 0 0 0\n"), 34},
    {"a count behind a slot", TEXT("graph 3\n0 const [] {1} # count 1\nout 0\n"), 22},
    {"a line of comment", TEXT("# E1\ngraph 3\n0 const [] {1}\nout 0\n"), 0},
    {"an empty line", TEXT("graph 3\n\n0 const [] {1}\nout 0\n"), 8},
    {"more behind a listing", TEXT("graph 3\n0 const [] {1}\nout 0\n\n"), 29},
    /* Beginnings of listings. */
    {"the largest number of slots", TEXT("graph 512\n"), 10},
    {"no last line end", TEXT("graph 3\n0 const [] {1}\nout 0"), 28},
    /* Unsound, too: the form comes first. */
    {"a form before a cycle", TEXT("graph 1\n0 call 7 [0] {}\nout 0 \n"), 30}
};

/* Listings of graphs that are not sound. */
static const struct {
    const char *what;
    const char *text;
    size_t text_len;
} unsound_listings[] = {
    {"no vertex", TEXT("graph 1\nout 0\n")},
    {"an input past the slots", TEXT("graph 1\n0 call 7 [1] {}\nout 0\n")},
    {"an input that is no slot's number", TEXT("graph 1\n0 call 7 [65535] {}\nout 0\n")},
    {"an input that is Empty", TEXT("graph 3\n0 call 7 [2] {}\nout 0\n")},
    {"an output that is Empty", TEXT("graph 3\n0 const [] {1}\nout 0 1\n")},
    {"an output past the slots", TEXT("graph 1\n0 const [] {1}\nout 0 0 0 65535\n")},
    {"a projection's index of 0", TEXT("graph 2\n0 const [] {1}\n1 proj [0] {0}\nout 1\n")},
    {"a negative index", TEXT("graph 2\n0 const [] {1}\n1 proj [0] {-1}\nout 1\n")},
    {"a slot that reads itself", TEXT("graph 1\n0 call 7 [0] {}\nout 0\n")},
    {"the last operator", TEXT("graph 1\n0 call 14 [0] {1}\nout 0\n")},
    {"the most inputs of an operator", TEXT("graph 1\n0 call 6 [0 0 0 0 0] {1 2}\nout 0\n")},
    {"a cycle that no output needs",
     TEXT("graph 3\n0 const [] {1}\n1 tuple [2] {}\n2 tuple [1] {}\nout 0\n")}
};

enum { LONGEST_TEXT = 160 };

/* Those of a slot less and of a slot more than five, and others that five slots do not have. */
enum { LONGEST_BUFFER = HEADER_LENGTH + RECORD_LENGTH * (SLOTS + 1) };

static const size_t bad_buffer_lengths[] = {
    0, 1, HEADER_LENGTH, HEADER_LENGTH + RECORD_LENGTH * (SLOTS - 1), TABLE_LENGTH - 1,
    TABLE_LENGTH + 1, LONGEST_BUFFER
};

#endif
