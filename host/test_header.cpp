// The header in C++, under strict warnings: the names must link as C.

#include "leafgraph.h"
#include "leafgraph.h" // the include guard
#include "test_blocks.h"

#include <algorithm>
#include <vector>

static_assert(LG_DONE == 0 && LG_BAD_MAP_LENGTH == 1 && LG_NO_MATCH == 4 && LG_NO_RESULT == 5
                  && LG_NO_ROOM == 6 && LG_CYCLE == 7, "numbers of document 01");
static_assert(LG_BAD_GRAPH_HEADER == 20 && LG_BAD_GRAPH_RECORD == 21 && LG_BAD_GRAPH_NAME == 22
                  && LG_GRAPH_HAS_CYCLE == 23 && LG_BAD_GRAPH_COUNT == 24,
              "numbers for a bad graph");
static_assert(LG_GRAPH_VERSION == 2 && LG_VERSION_TO_IMPORT == 1, "versions of a graph block");
static_assert(LG_BAD_RULE_HEADER == 30 && LG_BAD_RULE_RECORD == 31 && LG_BAD_RULE_ORDER == 32
                  && LG_BAD_RULE_OUTPUTS == 33 && LG_BAD_RULE_EXPRESSION == 34,
              "numbers for a bad rule");
static_assert(LG_BAD_MOVES_LENGTH == 40 && LG_NO_SLOT == 65535, "numbers for a list of moves");
static_assert(LG_NOT_A_MATCH == 41 && LG_NO_SUCH_VERTEX == 42, "numbers for a question");
static_assert(LG_SHORT_TEXT == 43 && LG_NOT_A_LISTING == 44 && LG_UNSOUND_GRAPH == 45
                  && LG_BAD_BUFFER_LENGTH == 46 && LG_LISTING_ROOM == 65535,
              "numbers for a listing");

// A block in memory of another kind and at an odd address.
static std::vector<uint8_t> shifted(const uint8_t *block, size_t length) {
    std::vector<uint8_t> bytes(1 + length);
    std::copy(block, block + length, bytes.begin() + 1);
    return bytes;
}

static int count_shifted_differences() {
    const std::vector<uint8_t> graph = shifted(one_variable, sizeof one_variable);
    const uint64_t reply = lg_check_graph(graph.data() + 1, graph.size() - 1);
    return differs("shifted graph", reply, LG_DONE);
}

static int count_shifted_find_differences() {
    const std::vector<uint8_t> graph = shifted(e1_block, sizeof e1);
    const std::vector<uint8_t> rule = shifted(two_relus, sizeof two_relus);
    std::vector<uint8_t> map(1 + MAP_LENGTH);
    const uint64_t reply = lg_find_match(graph.data() + 1, graph.size() - 1,
                                         rule.data() + 1, rule.size() - 1, 0,
                                         map.data() + 1, map.size() - 1);
    return differs("shifted match", reply, LG_DONE)
           + (map == shifted(p1_map, sizeof p1_map) ? 0 : 1);
}

static int count_shifted_asked_differences() {
    const std::vector<uint8_t> graph = shifted(e1_block, sizeof e1);
    const std::vector<uint8_t> rule = shifted(two_relus, sizeof two_relus);
    const std::vector<uint8_t> map = shifted(p1_map, sizeof p1_map);
    const uint64_t reply = lg_is_read_elsewhere(graph.data() + 1, graph.size() - 1,
                                                rule.data() + 1, rule.size() - 1,
                                                map.data() + 1, map.size() - 1, 2);
    return reply_differs("shifted question", reply, LG_DONE, 0, YES);
}

static int count_shifted_rewrite_differences() {
    uint8_t e1_after[sizeof e1];
    std::vector<uint8_t> graph = shifted(e1_block, sizeof e1);
    const std::vector<uint8_t> rule = shifted(two_relus, sizeof two_relus);
    std::vector<uint8_t> map(1 + MAP_LENGTH);
    const uint64_t reply = lg_rewrite(graph.data() + 1, graph.size() - 1,
                                      rule.data() + 1, rule.size() - 1, 0,
                                      map.data() + 1, map.size() - 1);
    put_e1_after_p1(e1_after);
    return differs("shifted rewriting", reply, LG_DONE)
           + (graph == shifted(e1_after, sizeof e1_after) ? 0 : 1)
           + (map == shifted(p1_map, sizeof p1_map) ? 0 : 1);
}

static int count_shifted_squeeze_differences() {
    const squeeze_call &call = squeeze_calls[2];
    uint8_t before[TABLE_LENGTH], after[TABLE_LENGTH], moves[MOVES_LENGTH];
    put_table(before, &call.before);
    put_table(after, &call.after);
    put_moves(moves, &call);
    std::vector<uint8_t> graph = shifted(before, sizeof before);
    std::vector<uint8_t> list(1 + MOVES_LENGTH);
    const uint64_t swept = lg_sweep(graph.data() + 1, graph.size() - 1);
    const uint64_t squeezed = lg_squeeze(graph.data() + 1, graph.size() - 1,
                                         list.data() + 1, list.size() - 1);
    return differs("shifted sweep", swept, LG_DONE) + differs("shifted squeeze", squeezed, LG_DONE)
           + (graph == shifted(after, sizeof after) ? 0 : 1)
           + (list == shifted(moves, sizeof moves) ? 0 : 1);
}

static int count_shifted_import_differences() {
    uint8_t before[TABLE_LENGTH], after[TABLE_LENGTH];
    put_import(before, after, &import_calls[0]);
    std::vector<uint8_t> graph = shifted(before, sizeof before);
    const uint64_t reply = lg_import(graph.data() + 1, graph.size() - 1);
    return differs("shifted import", reply, LG_DONE)
           + (graph == shifted(after, sizeof after) ? 0 : 1);
}

static int count_shifted_listing_differences() {
    const listing_call &call = listing_calls[1];
    const uint8_t *bytes = reinterpret_cast<const uint8_t *>(call.text);
    uint8_t block[TABLE_LENGTH];
    put_table(block, &call.table);
    const std::vector<uint8_t> graph = shifted(block, sizeof block);
    const std::vector<uint8_t> text = shifted(bytes, call.text_len);
    std::vector<uint8_t> written(text.size()), made(graph.size());
    const uint64_t listed = lg_write_listing(graph.data() + 1, graph.size() - 1,
                                             written.data() + 1, written.size() - 1);
    const uint64_t read = lg_read_listing(text.data() + 1, text.size() - 1,
                                          made.data() + 1, made.size() - 1);
    return reply_differs("shifted listing", listed, LG_DONE, 0,
                         static_cast<uint32_t>(call.text_len))
           + differs("shifted text", read, LG_DONE) + (written == text ? 0 : 1)
           + (made == graph ? 0 : 1);
}

int main() {
    const int count = count_differences() + count_find_differences()
                      + count_asked_differences() + count_changed_map_differences()
                      + count_asked_of_p1_differences()
                      + count_rewrite_differences() + count_constants_differences()
                      + count_sweep_differences() + count_squeeze_differences()
                      + count_import_differences() + count_listing_differences()
                      + count_text_fault_differences() + count_fault_differences()
                      + count_helper_differences()
                      + count_shifted_differences() + count_shifted_find_differences()
                      + count_shifted_asked_differences()
                      + count_shifted_rewrite_differences()
                      + count_shifted_squeeze_differences()
                      + count_shifted_import_differences()
                      + count_shifted_listing_differences();
    if (count == 0) {
        puts("header test in C++: no difference");
    }
    return count == 0 ? 0 : 1;
}
