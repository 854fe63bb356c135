/* leafgraph: checks the operator graphs of an image pipeline and the rules by
 * which they are rewritten, finds where a rule matches, says whether what it matches is
 * read elsewhere, and rewrites there; sweeps out what no output needs, squeezes what is
 * left together, imports graphs of the format's first version, and writes graphs as text
 * and reads them back.
 *
 * What holds for every function here:
 *
 * - Any bytes of any length are answered. A bad block is refused with the kind
 *   of its fault and, for the kinds that have one, its place; the caller need not
 *   have checked anything before.
 * - Each pointer must be valid for the length given with it. A length of 0
 *   still wants a pointer that is not null. No alignment is needed.
 * - Buffers given to one call must not overlap.
 * - After a refusal every lent byte is as it came.
 * - A graph block is one of version 2 (LG_GRAPH_VERSION). Each of its slots has its
 *   count: how many input places and graph outputs name it. Places count, not readers:
 *   where a vertex reads a slot twice, that is two. What is written has true counts.
 *   lg_import alone takes another version: version 1, and only that.
 * - There is no state: calls may be made from any number of threads at once,
 *   as long as no buffer is written by one call while another one uses it.
 * - No memory is allocated. Each function's Stack line says how much stack to
 *   leave it. That is measured with the worst blocks that we could build, with
 *   room to spare, and not proved.
 * - Numbers in the blocks are little-endian on every machine.
 */
#ifndef LEAFGRAPH_H
#define LEAFGRAPH_H

#include <stddef.h>
#include <stdint.h>

/* The version of this header and of the library that it is installed with.
 * Version 2 tells the kinds of fault apart: what was reply 2 (bad graph) is one of
 * 20 to 23, and what was reply 3 (bad rule) one of 30 to 34, each with a place. A
 * caller that needs no more than before asks lg_is_bad_graph and lg_is_bad_rule.
 * Version 2.1 adds lg_sweep and lg_squeeze, with reply 40.
 * Version 3 takes and leaves graph blocks of version 2, which have counts, with
 * reply 24 for a wrong one. Graph blocks of version 1, which versions before took,
 * are refused with reply 20, except by lg_import, which makes version 2 of them.
 * Version 3.1 adds lg_is_read_elsewhere, with replies 41 and 42, and lg_reply_value.
 * Version 3.2 adds lg_write_listing and lg_read_listing, with replies 43 to 46.
 * Nothing that was there has changed in either. */
#define LEAFGRAPH_VERSION "3.2.0"

#ifdef __cplusplus
extern "C" {
#endif

/* Reply numbers, in the order in which they are tested: the first that applies
 * is given. Of a block with faults of several kinds that is the first kind,
 * wherever its fault stands.
 *
 * Those about a block, and LG_NOT_A_LISTING, say what their place is (lg_reply_place);
 * with all others it is 0.
 * In a rule with S source vertices, vertex p is source vertex p, or, from S on,
 * target vertex p - S. */
enum {
    LG_DONE = 0,           /* done */
    LG_BAD_MAP_LENGTH = 1, /* the map buffer is not 32 bytes */

    /* Bad graph blocks: lg_is_bad_graph. */
    LG_BAD_GRAPH_HEADER = 20, /* the length, or a field of the header, its version
                                 and unused output places included. Place: 0 */
    LG_BAD_GRAPH_RECORD = 21, /* a record that does not suit its kind. Place:
                                 the lowest such slot */
    LG_BAD_GRAPH_NAME = 22,   /* an input or an output that names no vertex.
                                 Place: the lowest slot with such an input; only
                                 where there is none, the lowest output, 0 to 3 */
    LG_GRAPH_HAS_CYCLE = 23,  /* a cycle. Place: the lowest slot on one */
    LG_BAD_GRAPH_COUNT = 24,  /* a stored count that is not the true one. Place:
                                 the lowest such slot */

    /* Bad rule blocks: lg_is_bad_rule. */
    LG_BAD_RULE_HEADER = 30,     /* the length, or a field of the header, unused
                                    output places and source outputs that are no
                                    source vertex included. Place: 0 */
    LG_BAD_RULE_RECORD = 31,     /* a record that does not suit its kind, or
                                    with a bad input place. Place: the lowest
                                    such vertex */
    LG_BAD_RULE_ORDER = 32,      /* visiting order. Place: the first vertex that
                                    the walk from the outputs does not visit in
                                    its turn */
    LG_BAD_RULE_OUTPUTS = 33,    /* outputs, connection, a rule input or a
                                    target vertex that nothing names. Place: 0,
                                    also where it is about a vertex */
    LG_BAD_RULE_EXPRESSION = 34, /* an expression. Place: the lowest bad node;
                                    only where there is none, the lowest vertex
                                    that uses one badly */

    LG_BAD_MOVES_LENGTH = 40, /* the list of moves is not two bytes for each of
                                 the graph's slots */
    LG_NOT_A_MATCH = 41,      /* the map is no match of the rule in the graph, or
                                 is not 65535 past the last source vertex */
    LG_NO_SUCH_VERTEX = 42,   /* the number is no source vertex, or one that is a
                                 rule input (a wildcard or a Variable) */

    LG_SHORT_TEXT = 43,        /* the text buffer is shorter than the listing */
    LG_NOT_A_LISTING = 44,     /* the text has not the form of a listing. Place: the
                                  first byte at which no listing can go on; or the
                                  text's length, if a listing ends too early there */
    LG_UNSOUND_GRAPH = 45,     /* it has that form, and its graph is not sound */
    LG_BAD_BUFFER_LENGTH = 46, /* the graph buffer is not exactly 24 + 48 N bytes,
                                  for the N of the listing */

    LG_NO_MATCH = 4,  /* no match from the start number on */
    LG_NO_RESULT = 5, /* a target attribute has no result, or a projection's
                         index is below 1 */
    LG_NO_ROOM = 6,   /* more target vertices than Empty slots and removed ones
                         (a Const that stays frees none) */
    LG_CYCLE = 7      /* the table so made would have a cycle */
};

enum {
    LG_MAP_LENGTH = 32,      /* the bytes of a map */
    LG_NO_SLOT = 65535,      /* in a map, past the last source vertex; in a list of
                                moves, for a slot that was Empty */
    LG_LISTING_ROOM = 65535, /* bytes in which every listing has room */

    /* Bytes 4 and 5 of a graph block. */
    LG_GRAPH_VERSION = 2,    /* with counts: lg_import and lg_read_listing make it, all
                                else takes it */
    LG_VERSION_TO_IMPORT = 1 /* without them: lg_import takes it */
};

/* The number of a reply: bits 0 to 7. Compare this, and not the whole reply,
 * with the constants above. */
static inline unsigned lg_reply_number(uint64_t reply) {
    return reply & 0xff;
}

/* Whether the reply is about the graph block: numbers 20 to 29. Ask this where
 * the kind of fault does not matter: kinds that a later version adds will be
 * among these numbers. */
static inline int lg_is_bad_graph(uint64_t reply) {
    return lg_reply_number(reply) / 10 == 2;
}

/* Whether the reply is about the rule block: numbers 30 to 39, likewise. */
static inline int lg_is_bad_rule(uint64_t reply) {
    return lg_reply_number(reply) / 10 == 3;
}

/* The place that a refusal names: bits 8 to 39. What it counts stands at each
 * number above. Two numbers leave that open: LG_BAD_GRAPH_NAME does not tell a
 * slot from an output, nor LG_BAD_RULE_EXPRESSION a node from a vertex. Look at
 * the bytes to settle it: if the slot of that number has a bad input, or the node
 * of that number is bad, that is the place. (place_in of leafgraph.hpp does it.) */
static inline uint32_t lg_reply_place(uint64_t reply) {
    return (reply >> 8) & 0xffffffff;
}

/* The value beside a reply: bits 40 to 63. With LG_DONE it is 1 for yes of
 * lg_is_read_elsewhere, and the listing's length of lg_write_listing; with any other
 * reply, and of any other function, it is 0. Look at the number first: 0 beside a
 * refusal is no answer. */
static inline uint32_t lg_reply_value(uint64_t reply) {
    const uint64_t value = reply >> 40;
    return value & 0xffffff;
}

/* Checks a graph block.
 *
 * Reads:   graph_len bytes at graph.
 * Writes:  nothing.
 * Replies: LG_DONE if the bytes are a sound graph block, else the first that
 *          applies of LG_BAD_GRAPH_HEADER (also for a block of version 1),
 *          LG_BAD_GRAPH_RECORD, LG_BAD_GRAPH_NAME, LG_GRAPH_HAS_CYCLE and
 *          LG_BAD_GRAPH_COUNT.
 * Threads: any number at once.
 * Stack:   64 KiB.
 */
uint64_t lg_check_graph(const uint8_t *graph, size_t graph_len);

/* Checks a rule block.
 *
 * Reads:   rule_len bytes at rule.
 * Writes:  nothing.
 * Replies: LG_DONE if the bytes are a sound rule block, else the first that
 *          applies of LG_BAD_RULE_HEADER, LG_BAD_RULE_RECORD,
 *          LG_BAD_RULE_ORDER, LG_BAD_RULE_OUTPUTS and LG_BAD_RULE_EXPRESSION.
 * Threads: any number at once.
 * Stack:   64 KiB.
 */
uint64_t lg_check_rule(const uint8_t *rule, size_t rule_len);

/* Finds the least match of a rule in a graph: the one whose first output's
 * image is at least start and least, then whose second output's image is
 * least. Start is any number; at or above the number of slots it finds none.
 * The rule's Consts match Consts of the graph also where those have other
 * readers or are graph outputs; two of them never match the same one. The three
 * buffers must not overlap.
 *
 * Reads:   graph_len bytes at graph, rule_len bytes at rule.
 * Writes:  on LG_DONE, the 32 bytes at map: sixteen 16-bit numbers,
 *          little-endian. Number j is the slot that source vertex j matches,
 *          and 65535 from the rule's number of source vertices on. On a
 *          refusal, nothing.
 * Replies: LG_DONE if there is a match; else the first that applies of
 *          LG_BAD_MAP_LENGTH (map_len is not 32), what lg_check_graph and then
 *          lg_check_rule would refuse, and LG_NO_MATCH.
 * Threads: any number at once, each with a map of its own.
 * Stack:   64 KiB.
 */
uint64_t lg_find_match(const uint8_t *graph, size_t graph_len,
                       const uint8_t *rule, size_t rule_len,
                       size_t start,
                       uint8_t *map, size_t map_len);

/* Says whether the image of a source vertex, the slot that it matches, is read elsewhere.
 * The vertex is one that is no rule input (no wildcard and no Variable): an output of the
 * rule, or what stands between its inputs and its outputs, Consts included. The answer is
 * yes exactly when the image is a graph output, or is read by something other than the
 * image of a source vertex that is no rule input. So a read by the image of a rule input
 * makes it yes: that vertex stays. Graph, rule and map are checked first, at each call;
 * the answer then comes from the slot's count and the rule alone.
 *
 * The map is any match of the rule, not only a least one, with 65535 past the last source
 * vertex. What lg_find_match has written for this graph and this rule is one.
 *
 * Of a Const, yes means that a rewriting at this match would let it stay, and no that it
 * would remove it. Of a vertex that is no Const and no output the answer is always no: the
 * map would be no match otherwise. The three buffers must not overlap.
 *
 * Reads:   graph_len bytes at graph, rule_len bytes at rule, map_len bytes at map.
 * Writes:  nothing.
 * Replies: LG_DONE, with lg_reply_value 1 for yes and 0 for no; else the first that
 *          applies of LG_BAD_MAP_LENGTH (map_len is not 32), what lg_check_graph and then
 *          lg_check_rule would refuse, LG_NOT_A_MATCH and LG_NO_SUCH_VERTEX (vertex is a
 *          rule input, or not below the rule's number of source vertices; it may be any
 *          number).
 * Threads: any number at once.
 * Stack:   64 KiB.
 */
uint64_t lg_is_read_elsewhere(const uint8_t *graph, size_t graph_len,
                              const uint8_t *rule, size_t rule_len,
                              const uint8_t *map, size_t map_len,
                              size_t vertex);

/* Rewrites a graph by a rule where lg_find_match would find its match from
 * start on: the least one, and no other is tried. What the rule's source
 * vertices match becomes Empty, except what the rule's inputs (wildcards and
 * Variables) match, and a Const that stays. The rule's target vertices take the
 * lowest Empty slots, and every input and graph output that named a replaced
 * output names what takes its place. The three buffers must not overlap.
 *
 * What a Const of the rule matches stays, with every byte of its slot but its
 * count, if it is a graph output, or if it is read by a vertex that is not matched
 * or that a rule input matches. Else it is removed, too: so it goes with its last
 * reader. One that stays keeps its count, too, if as many places name it as before.
 *
 * Reads:   graph_len bytes at graph, rule_len bytes at rule.
 * Writes:  on LG_DONE, the graph_len bytes at graph: the new graph block, of
 *          the same length and sound again; and the 32 bytes at map, as
 *          lg_find_match does: its numbers are slots of the graph as it was
 *          before. On a refusal, nothing: the graph is as it came.
 * Replies: LG_DONE if the graph is rewritten; else the first that applies of
 *          LG_BAD_MAP_LENGTH (map_len is not 32), what lg_check_graph and then
 *          lg_check_rule would refuse, LG_NO_MATCH, LG_NO_RESULT (an attribute
 *          of a target vertex has no result, or a projection's index is below
 *          1), LG_NO_ROOM (the rule has more target vertices than there are
 *          Empty slots and slots of vertices that are really removed) and
 *          LG_CYCLE (the new graph would have a cycle).
 * Threads: any number at once, each with a graph and a map of its own.
 * Stack:   96 KiB, since it makes the new graph beside the old one.
 */
uint64_t lg_rewrite(uint8_t *graph, size_t graph_len,
                    const uint8_t *rule, size_t rule_len,
                    size_t start,
                    uint8_t *map, size_t map_len);

/* Sweeps a graph: every vertex from which no graph output is reached becomes
 * Empty, except Variables, which all stay, read or not. A vertex that an output
 * names reaches itself, and stays. What stays keeps every byte of its slot but its
 * count, and that, too, if as many places name it as before. The header is as it
 * was: the number of slots and the outputs are the same.
 * Whatever the operators, constants, tuples and projections mean, every vertex
 * that stays has the result that it had.
 *
 * Reads:   graph_len bytes at graph.
 * Writes:  on LG_DONE, the graph_len bytes at graph: the swept graph block, of
 *          the same length and sound again. On a refusal, nothing.
 * Replies: LG_DONE if the graph is swept, also where nothing had to go; else
 *          what lg_check_graph would refuse.
 * Threads: any number at once, each with a graph of its own.
 * Stack:   64 KiB.
 */
uint64_t lg_sweep(uint8_t *graph, size_t graph_len);

/* Squeezes a graph: its vertices move to the lowest slots, in their old order,
 * and every input and every graph output that named a vertex names it in its new
 * slot. Each vertex takes its count along. Behind the last vertex every slot is Empty
 * then; there are as many slots as before. It does not sweep: a vertex that nobody
 * reads moves like any other.
 * The two buffers must not overlap.
 *
 * Variables move, too, and the list of moves says to which number. Whatever the
 * operators, constants, tuples and projections mean: if each Variable is given
 * in its new slot the result that it had in its old one, every vertex has in its
 * new slot the result that it had in its old one.
 *
 * Reads:   graph_len bytes at graph.
 * Writes:  on LG_DONE, also where nothing had to move, the graph_len bytes at
 *          graph: the squeezed graph block, of the same length and sound again;
 *          and the moves_len bytes at moves: a 16-bit number, little-endian, for
 *          each slot. Number k is the slot to which the vertex in slot k went,
 *          and 65535 if slot k was Empty. On a refusal, nothing.
 * Replies: LG_DONE if the graph is squeezed; else the first that applies of what
 *          lg_check_graph would refuse and LG_BAD_MOVES_LENGTH (moves_len is not
 *          twice the number of slots).
 * Threads: any number at once, each with a graph and a list of its own.
 * Stack:   64 KiB.
 */
uint64_t lg_squeeze(uint8_t *graph, size_t graph_len,
                    uint8_t *moves, size_t moves_len);

/* Imports a graph: a block of version 1 becomes version 2, in place. Of its bytes
 * only the version and the counts change: the version is 2 then, and bytes 40 and 41
 * of each record, which are zero in version 1, hold the slot's true count. The graph
 * is the same.
 *
 * It is judged by the rules of version 1: where one of bytes 40 to 47 of a record is
 * not zero, that is LG_BAD_GRAPH_RECORD. Any other version is LG_BAD_GRAPH_HEADER,
 * also version 2, which needs no import.
 *
 * Reads:   graph_len bytes at graph.
 * Writes:  on LG_DONE, the graph_len bytes at graph: the graph block of version 2,
 *          of the same length and sound. On a refusal, nothing.
 * Replies: LG_DONE if the graph is imported; else the first that applies of
 *          LG_BAD_GRAPH_HEADER, LG_BAD_GRAPH_RECORD, LG_BAD_GRAPH_NAME and
 *          LG_GRAPH_HAS_CYCLE.
 * Threads: any number at once, each with a graph of its own.
 * Stack:   64 KiB.
 */
uint64_t lg_import(uint8_t *graph, size_t graph_len);

/* Writes a graph as text: its listing. This one is of three slots, the last Empty:
 *
 *     graph 3
 *     0 variable [] {1 3 8 8 1}
 *     1 call 7 [0] {}
 *     out 1
 *
 * Every sound graph has one listing, which docs/FORMATS.md describes byte by byte. It
 * is shorter than 65536 bytes, so that LG_LISTING_ROOM bytes are room for any. Its last
 * byte is the line end (byte 10) of its last line: no zero byte follows. From it
 * lg_read_listing makes the same block again, every byte of it. The two buffers must
 * not overlap.
 *
 * Reads:   graph_len bytes at graph.
 * Writes:  on LG_DONE, the first lg_reply_value bytes at text: the listing. Every byte
 *          behind those stays. On a refusal, nothing.
 * Replies: LG_DONE if the listing is written, with lg_reply_value its length; else the
 *          first that applies of what lg_check_graph would refuse and LG_SHORT_TEXT
 *          (text_len is less than the listing's length, which this does not tell).
 * Threads: any number at once, each with a text of its own.
 * Stack:   64 KiB.
 */
uint64_t lg_write_listing(const uint8_t *graph, size_t graph_len,
                          uint8_t *text, size_t text_len);

/* Reads a listing: makes its graph's block of version 2, with true counts. It is done
 * exactly where the text is what lg_write_listing writes of some sound graph, and
 * graph_len is 24 + 48 N for that graph's N, which the text's first line tells. What
 * the graph buffer holds before is not looked at. The two buffers must not overlap.
 *
 * The form is judged first, then whether the graph is sound. Of the listing's form is
 * a text with N from 1 to 512, slots that ascend below N, the numbers of inputs and
 * attributes that kind and operator want, 1 to 4 outputs, inputs and outputs from 0 to
 * 65535, and attributes that fit 32 bits. So a number that names no vertex, a
 * projection's index below 1 and a cycle are no matter of the form: they are
 * LG_UNSOUND_GRAPH. The place of LG_NOT_A_LISTING is the least p such that no text of
 * that form begins with the first p + 1 bytes of this one; where the whole text is the
 * beginning of one that goes on, it is text_len.
 *
 * Reads:   text_len bytes at text.
 * Writes:  on LG_DONE, the graph_len bytes at graph: the graph block. On a refusal,
 *          nothing.
 * Replies: LG_DONE if the block is written; else the first that applies of
 *          LG_NOT_A_LISTING, with its place, LG_UNSOUND_GRAPH and
 *          LG_BAD_BUFFER_LENGTH (graph_len is not 24 + 48 N).
 * Threads: any number at once, each with a graph of its own.
 * Stack:   64 KiB.
 */
uint64_t lg_read_listing(const uint8_t *text, size_t text_len,
                         uint8_t *graph, size_t graph_len);

#ifdef __cplusplus
}
#endif

#endif /* LEAFGRAPH_H */
