// The C++ wrapper: every reply, every kind of buffer, and what it refuses
// before the library is called.

#include "leafgraph.hpp"
#include "leafgraph.hpp" // the include guard

#include "blocks.hpp"
#include "faults.h"
#include "imports.h"
#include "listing.h"
#include "read_elsewhere.h"
#include "shared_constants.h"
#include "sweep_squeeze.h"

#include <cstdio>
#include <cstring>
#include <set>
#include <string>
#include <string_view>
#include <thread>
#include <utility>

#if __cplusplus > 201703L
#include <span>
#endif

using blocks::Block;
using blocks::Node;
using blocks::Pattern;
using blocks::Vertex;
using leafgraph::Answer;
using leafgraph::Bytes;
using leafgraph::Code;
using leafgraph::Listed;
using leafgraph::Map;
using leafgraph::Moves;
using leafgraph::Place;
using leafgraph::PlaceKind;
using leafgraph::Reply;
using leafgraph::Squeezed;
using leafgraph::WritableBytes;

namespace {

int failures = 0;

void expect(bool holds, const char *what) {
    if (!holds) {
        std::printf("does not hold: %s\n", what);
        ++failures;
    }
}

const Vertex a_variable = {blocks::variable, blocks::none, {}, {1, 3, 8, 8, 1}};
const Pattern a_wildcard = {blocks::wildcard, blocks::none, {}, {}};

Vertex relu_of(std::uint16_t input) {
    return {blocks::call, blocks::relu, {input}, {}};
}

Pattern relu_over(std::uint8_t place) {
    return {blocks::call, blocks::relu, {place}, {}};
}

// A Variable, a relu of it, and a relu of that, which is the output.
Block two_relus_graph() {
    return blocks::graph({a_variable, relu_of(0), relu_of(1)}, {2});
}

// What the rule that follows makes of it.
Block one_relu_graph() {
    return blocks::graph({a_variable, relu_of(0), {blocks::empty, blocks::none, {}, {}}}, {1});
}

// A relu of a relu becomes one relu.
Block two_relus_rule() {
    return blocks::rule({{a_wildcard, relu_over(0), relu_over(1)}, {relu_over(0)},
                         {2}, {blocks::made(0)}, {}});
}

// One relu becomes two: with no Empty slot there is no room for it.
Block longer_rule() {
    return blocks::rule({{a_wildcard, relu_over(0)}, {relu_over(0), relu_over(blocks::made(0))},
                         {1}, {blocks::made(1)}, {}});
}

// Document 01's P10: of gain over gain the attributes are multiplied.
Block gains_rule() {
    const Pattern inner = {blocks::call, blocks::gain, {0}, {0, 0, 0}};
    const Pattern outer = {blocks::call, blocks::gain, {1}, {0, 0, 0}};
    const Pattern product = {blocks::call, blocks::gain, {0}, {3, 3, 3}};
    const std::vector<Node> nodes = {{blocks::any, 0, 0}, {blocks::access, 1, 1},
                                     {blocks::access, 2, 1}, {blocks::multiply, 1, 2}};
    return blocks::rule({{a_wildcard, inner, outer}, {product}, {2}, {blocks::made(0)}, nodes});
}

Block gains_graph(std::int32_t attribute) {
    const Vertex inner = {blocks::call, blocks::gain, {0}, {attribute, 1, 1}};
    const Vertex outer = {blocks::call, blocks::gain, {1}, {attribute, 1, 1}};
    return blocks::graph({a_variable, inner, outer}, {2});
}

// Document 01's P7: the target of both outputs reads what reads the first.
Block pair_rule() {
    return blocks::rule({{a_wildcard, relu_over(0), a_wildcard,
                          {blocks::call, blocks::add, {0, 2}, {}}},
                         {{blocks::call, blocks::sub, {0, 2}, {}}},
                         {1, 3}, {blocks::made(0), blocks::made(0)}, {}});
}

Block pair_graph() {
    return blocks::graph({a_variable, relu_of(0), {blocks::call, blocks::mean, {1}, {1}},
                          {blocks::call, blocks::add, {0, 2}, {}}}, {3});
}

struct Call {
    Block graph, rule;
    std::size_t start, map_length;
    Code code;
};

// A call for each reply that the library has, but for the kinds of fault of a block:
// those are in faults.h.
std::vector<Call> calls() {
    Block bad_graph = two_relus_graph(), bad_rule = two_relus_rule();
    bad_graph.pop_back();
    bad_rule[0] = 'l';
    return {{two_relus_graph(), two_relus_rule(), 0, 32, Code::done},
            {bad_graph, bad_rule, 0, 31, Code::bad_map_length},
            {bad_graph, bad_rule, 0, 32, Code::bad_graph_header},
            {two_relus_graph(), bad_rule, 0, 32, Code::bad_rule_header},
            {two_relus_graph(), two_relus_rule(), 3, 32, Code::no_match},
            {two_relus_graph(), two_relus_rule(), SIZE_MAX, 32, Code::no_match},
            {gains_graph(65536), gains_rule(), 0, 32, Code::no_result},
            {blocks::graph({a_variable, relu_of(0)}, {1}), longer_rule(), 0, 32, Code::no_room},
            {pair_graph(), pair_rule(), 0, 32, Code::cycle}};
}

void test_rewriting_replies() {
    std::set<Code> seen;
    for (const Call &call : calls()) {
        Block graph = call.graph, map(call.map_length, 0xaa);
        const Block rule = call.rule, map_before = map;
        const Reply reply = leafgraph::rewrite(graph, rule, call.start, map);
        expect(reply.code() == call.code, leafgraph::what(call.code));
        expect(reply.number() == static_cast<unsigned>(call.code), "the number is the code's");
        expect(reply.place() == 0, "none of these has a place");
        expect(reply.done() == (call.code == Code::done), "done is number 0");
        expect(reply.done() || (graph == call.graph && map == map_before),
               "a refusal keeps every byte");
        seen.insert(reply.code());
    }
    expect(seen.size() == 8, "each of these eight replies was seen");
}

void test_search_and_checks() {
    for (const Call &call : calls()) {
        Block map(call.map_length, 0xaa);
        const Reply reply = leafgraph::find_match(call.graph, call.rule, call.start, map);
        const bool only_rewriting = call.code == Code::no_result || call.code == Code::no_room
                                    || call.code == Code::cycle;
        expect(reply.code() == (only_rewriting ? Code::done : call.code),
               "a search is refused as a rewriting is, up to no match");
    }
    const Block graph = two_relus_graph(), rule = two_relus_rule();
    expect(leafgraph::check_graph(graph).done(), "a sound graph");
    expect(leafgraph::check_rule(rule).done(), "a sound rule");
    expect(leafgraph::check_graph(rule).code() == Code::bad_graph_header, "a rule is no graph");
    expect(leafgraph::check_rule(graph).code() == Code::bad_rule_header, "a graph is no rule");
}

void test_result_of_rewriting() {
    Block graph = two_relus_graph();
    Map map;
    expect(map[0] == Map::no_slot && map[15] == Map::no_slot, "a new map has no slot");
    expect(bool(leafgraph::rewrite(graph, two_relus_rule(), 0, map)), "rewritten");
    expect(graph == one_relu_graph(), "the new graph");
    expect(map[0] == 0 && map[1] == 1 && map[2] == 2, "the slots of the match");
    expect(map[3] == Map::no_slot && map[15] == Map::no_slot, "no slot past the last vertex");
    expect(map[16] == Map::no_slot && map[SIZE_MAX] == Map::no_slot, "nor past the map");
    expect(leafgraph::rewrite(graph, two_relus_rule(), 0, map).code() == Code::no_match,
           "no match is left");
}

void test_constants() {
    for (const constants_call &call : constants_calls) {
        Block graph(TABLE_LENGTH), after(TABLE_LENGTH);
        put_table(graph.data(), &call.before);
        put_table(after.data(), &call.after);
        const Bytes rule(call.rule, call.rule_len);
        const bool matches = call.reply != LG_NO_MATCH;
        Map map;
        expect(leafgraph::find_match(graph, rule, 0, map).done() == matches, call.what);
        expect(leafgraph::rewrite(graph, rule, 0, map).number() == call.reply, call.what);
        expect(graph == after, call.what);
        const bool images = map[0] == 1 && map[1] == 0 && map[2] == 2 && map[3] == Map::no_slot;
        expect(images == matches, call.what);
    }
}

Block block_of(const table &table) {
    Block block(TABLE_LENGTH);
    put_table(block.data(), &table);
    return block;
}

// A block with a fault, of version 2, or of version 1 for an import.
Block block_with(const graph_fault &fault) {
    Block graph(TABLE_LENGTH);
    put_graph_fault(graph.data(), &fault);
    return graph;
}

Block block_with(const rule_fault &fault) {
    Block rule(fault.rule_len);
    put_rule_fault(rule.data(), &fault);
    return rule;
}

Block version_1_with(const graph_fault &fault) {
    Block graph(TABLE_LENGTH);
    put_import_fault(graph.data(), &fault);
    return graph;
}

// Those of every version, and those of version 2.
std::vector<graph_fault> all_graph_faults() {
    std::vector<graph_fault> faults(std::begin(graph_faults), std::end(graph_faults));
    faults.insert(faults.end(), std::begin(count_faults), std::end(count_faults));
    return faults;
}

// Those of every version, and those of an import.
std::vector<graph_fault> all_import_faults() {
    std::vector<graph_fault> faults(std::begin(graph_faults), std::end(graph_faults));
    faults.insert(faults.end(), std::begin(import_faults), std::end(import_faults));
    return faults;
}

// The map of a call.
Block map_of(const read_call &call) {
    Block map(LG_MAP_LENGTH);
    put_images(map.data(), &call);
    return map;
}

// An answer is yes, no or neither: a refusal is no answer.
void expect_answer(Answer answer, unsigned number, std::uint32_t value, const char *what) {
    expect(answer.reply.number() == number && answer.reply.place() == 0, what);
    expect(answer.reply.value() == value && answer.done() == (number == LG_DONE), what);
    expect(answer.yes() == (number == LG_DONE && value == YES), what);
    expect(answer.no() == (number == LG_DONE && value == NO), what);
}

// A question that this header, or the library, refuses with this code.
void expect_no_answer(Answer answer, Code code, const char *what) {
    expect_answer(answer, static_cast<unsigned>(code), 0, what);
}

void test_read_elsewhere() {
    for (const read_call &call : read_calls) {
        const Block graph = block_of(call.table), map = map_of(call);
        const Bytes rule(call.rule, call.rule_len);
        expect_answer(leafgraph::is_read_elsewhere(graph, rule, map, call.vertex), call.number,
                      call.value, call.what);
        expect(graph == block_of(call.table) && map == map_of(call), "a question changes nothing");
    }
    static_assert(Answer{Reply(std::uint64_t{1} << 40)}.yes());
    static_assert(Answer{Reply(std::uint64_t{0})}.no());
    static_assert(!Answer{Reply(Code::not_a_match)}.no() && !Answer{Reply(Code::overlap)}.no());
    static_assert(!Answer{Reply((std::uint64_t{1} << 40) + 42)}.yes(), "whatever is beside it");
    static_assert(!std::is_constructible_v<bool, Answer>, "is that done, or yes?");
}

// A map that a search has written, and one that it has not.
void test_read_elsewhere_with_a_map() {
    const Block graph = two_relus_graph(), rule = two_relus_rule();
    Map map;
    expect_no_answer(leafgraph::is_read_elsewhere(graph, rule, map, 1), Code::not_a_match,
                     "a new map is no match");
    expect(leafgraph::find_match(graph, rule, 0, map).done(), "a match is found");
    expect(leafgraph::is_read_elsewhere(graph, rule, map, 1).no(), "only the match reads it");
    expect(leafgraph::is_read_elsewhere(graph, rule, map, 2).yes(), "it is a graph output");
    expect_no_answer(leafgraph::is_read_elsewhere(graph, rule, map, 0), Code::no_such_vertex,
                     "a rule input");
    expect_no_answer(leafgraph::is_read_elsewhere(one_relu_graph(), rule, map, 1),
                     Code::not_a_match, "a match of another graph");
}

// Each refusal before those that follow: here is no match, and no vertex of that number.
void test_read_elsewhere_refusals() {
    const Block graph = two_relus_graph(), rule = two_relus_rule(), map(LG_MAP_LENGTH);
    for (const graph_fault &fault : all_graph_faults()) {
        const Block bad = block_with(fault);
        const Answer answer = leafgraph::is_read_elsewhere(bad, rule, map, SIZE_MAX);
        expect(answer.reply == leafgraph::check_graph(bad), fault.what);
        expect(answer.reply.bad_graph() && !answer.yes() && !answer.no(), fault.what);
    }
    for (const rule_fault &fault : rule_faults) {
        const Block bad = block_with(fault);
        const Answer answer = leafgraph::is_read_elsewhere(graph, bad, map, SIZE_MAX);
        expect(answer.reply == leafgraph::check_rule(bad), fault.what);
        expect(answer.reply.bad_rule() && !answer.yes() && !answer.no(), fault.what);
    }
    for (const std::size_t length : bad_map_lengths) {
        const Block bad(length);
        expect_no_answer(leafgraph::is_read_elsewhere(Block(1), Block(1), bad, SIZE_MAX),
                         Code::bad_map_length, "a map of another length");
    }
}

void test_sweep() {
    for (const sweep_call &call : sweep_calls) {
        Block graph = block_of(call.before);
        expect(leafgraph::sweep(graph).done(), call.what);
        expect(graph == block_of(call.after), call.what);
    }
}

// The moves, by every way in which they can be asked for.
void expect_moves(Moves moves, const squeeze_call &call) {
    expect(moves.size() == SLOTS, call.what);
    for (std::size_t slot = 0; slot < SLOTS; ++slot) {
        const bool was_empty = call.before.slots[slot] == EMPTY;
        const std::uint16_t to = was_empty ? Moves::no_slot : std::uint16_t{call.moves[slot]};
        expect(moves[slot] == to && moves.was_empty(slot) == was_empty, call.what);
    }
    expect(moves[SLOTS] == Moves::no_slot && moves.was_empty(SIZE_MAX), "past the last slot");
}

void test_squeeze() {
    for (const squeeze_call &call : squeeze_calls) {
        Block graph = block_of(call.before), list(leafgraph::moves_length(graph), 0xaa);
        Block expected(MOVES_LENGTH);
        put_moves(expected.data(), &call);
        const Squeezed squeezed = leafgraph::squeeze(graph, list);
        expect(bool(squeezed) && squeezed.done() && squeezed.reply.done(), call.what);
        expect(graph == block_of(call.after) && list == expected, call.what);
        expect_moves(squeezed.moves, call);
        list[0] = 77;
        list[1] = 1;
        expect(squeezed.moves[0] == 77 + 256, "the moves are a view of the list");
    }
    static_assert(Moves::no_slot == 65535 && Map::no_slot == Moves::no_slot);
    expect(Moves().size() == 0 && Moves().was_empty(0), "the moves of no slot");
    expect(Moves({nullptr, 4}).size() == 0 && Moves({nullptr, 4}).was_empty(0), "a null list");
}

// A refused squeeze with a list of this length, which keeps every byte and has no moves.
void expect_refused_squeeze(const Block &graph, std::size_t length, Reply expected,
                            const char *what) {
    Block lent = graph, list(length, 0xaa);
    const auto [reply, moves] = leafgraph::squeeze(lent, list);
    expect(reply == expected && !reply.done(), what);
    expect(lent == graph && list == Block(length, 0xaa), what);
    expect(moves.size() == 0 && moves[0] == Moves::no_slot, what);
}

void test_sweep_and_squeeze_refusals() {
    for (const graph_fault &fault : all_graph_faults()) {
        Block graph = block_with(fault);
        const Block before = graph;
        const Reply expected = leafgraph::check_graph(graph);
        expect(expected.bad_graph() && leafgraph::sweep(graph) == expected, fault.what);
        expect(graph == before, "a refused sweep keeps every byte");
        expect_refused_squeeze(graph, MOVES_LENGTH, expected, fault.what);
        expect_refused_squeeze(graph, 0, expected, "a bad graph comes before a bad list");
    }
    const Block graph = block_of(squeeze_calls[2].before);
    for (const std::size_t length : bad_moves_lengths) {
        expect_refused_squeeze(graph, length, Reply(Code::bad_moves_length), "a bad list");
    }
    expect(!leafgraph::squeeze(WritableBytes(), WritableBytes()), "a refusal is no done");
}

// The version 1 block of a call, and what an import makes of it.
std::pair<Block, Block> imported_blocks(const import_call &call) {
    Block before(TABLE_LENGTH), after(TABLE_LENGTH);
    put_import(before.data(), after.data(), &call);
    return {before, after};
}

void test_import() {
    for (const import_call &call : import_calls) {
        const auto [before, after] = imported_blocks(call);
        Block graph = before;
        expect(leafgraph::check_graph(graph).code() == Code::bad_graph_header, call.what);
        expect(leafgraph::wants_import(graph), "version 1 wants an import");
        expect(leafgraph::import_graph(graph).done() && graph == after, call.what);
        expect(leafgraph::check_graph(graph).done(), "what is imported is sound");
        expect(!leafgraph::wants_import(graph), "and wants no other import");
        expect(leafgraph::import_graph(graph) == Reply(Code::bad_graph_header) && graph == after,
               "nor does it get one");
    }
    for (const graph_fault &fault : all_import_faults()) {
        Block graph = version_1_with(fault);
        const Block before = graph;
        const Reply reply = leafgraph::import_graph(graph);
        expect(reply.number() == fault.number && reply.place() == fault.place, fault.what);
        expect(graph == before, "a refused import keeps every byte");
    }
}

// What wants no import: other marks, versions and lengths, and what is no block at all.
void test_what_wants_no_import() {
    const Block graph = imported_blocks(import_calls[0]).first;
    for (const std::size_t at : {0U, 1U, 2U, 4U, 5U, 6U, 7U}) {
        Block other = graph;
        other[at]++;
        expect(!leafgraph::wants_import(other), "another byte of mark, version or length");
    }
    expect(!leafgraph::wants_import({graph.data(), graph.size() - 1}), "a byte too few");
    expect(!leafgraph::wants_import({graph.data(), 7}), "a cut header");
    expect(!leafgraph::wants_import(two_relus_rule()), "a rule");
    Block faulty = graph;
    faulty[23] = 1;
    expect(leafgraph::wants_import(faulty), "another fault is the import's to tell");
}

void test_stored_counts() {
    for (const import_call &call : import_calls) {
        const Block graph = imported_blocks(call).second;
        for (std::size_t slot = 0; slot < SLOTS; ++slot) {
            expect(leafgraph::stored_count(graph, slot) == call.counts[slot], call.what);
        }
        expect(leafgraph::stored_count(graph, SLOTS) == 0, "past the last slot");
        expect(leafgraph::stored_count(graph, SIZE_MAX) == 0, "far past it");
    }
    Block graph = two_relus_graph();
    put_count(graph.data(), 1, 513);
    expect(leafgraph::stored_count(graph, 1) == 513, "both bytes, true or not");
    expect(leafgraph::stored_count({graph.data(), 24}, 1) == 0, "a block that is cut off");
    expect(leafgraph::stored_count(Bytes(), 0) == 0, "no block");
}

std::string_view text_of(const listing_call &call) {
    return {call.text, call.text_len};
}

// A sound graph and its listing: each of them makes the other.
void expect_listing(const Block &graph, std::string_view text, const char *what) {
    std::string room(text.size() + 9, '!');
    const Listed listed = leafgraph::write_listing(graph, room);
    expect(bool(listed) && listed.done() && listed.reply.done(), what);
    expect(listed.text == text && listed.length() == text.size(), what);
    expect(listed.text.data() == room.data(), "the text is a view of the lent bytes");
    expect(listed.reply.value() == text.size() && listed.reply.place() == 0, what);
    expect(room == std::string(text) + std::string(9, '!'), "what is behind it stays");
    std::string own = "something";
    expect(leafgraph::assign_listing(graph, own) == listed.reply && own == text, what);
    Block made(leafgraph::graph_length(text), 0xaa);
    expect(made.size() == graph.size(), "the first line tells the block's length");
    expect(leafgraph::read_listing(text, made).done() && made == graph, what);
}

void test_listings() {
    for (const listing_call &call : listing_calls) {
        expect_listing(block_of(call.table), text_of(call), call.what);
    }
    const auto *kinds = reinterpret_cast<const std::uint8_t *>(&kinds_graph);
    expect_listing(Block(kinds, kinds + KINDS_LENGTH), kinds_text, "all kinds");
    expect_listing(two_relus_graph(), "graph 3\n0 variable [] {1 3 8 8 1}\n1 call 7 [0] {}\n"
                                      "2 call 7 [1] {}\nout 2\n", "two relus");
    static_assert(leafgraph::listing_room() == 65535);
    static_assert(Listed{Reply(Code::short_text), {}}.length() == 0);
    static_assert(!std::is_convertible_v<Listed, bool>);
}

// All 512 slots Variables with the longest numbers: no listing is longer.
void test_longest_listing() {
    const std::vector<std::int32_t> least(5, INT32_MIN);
    const Vertex longest = {blocks::variable, blocks::none, {}, least};
    const Block graph = blocks::graph(std::vector<Vertex>(512, longest), {511, 511, 511, 511});
    std::string text;
    Block made(graph.size());
    expect(leafgraph::assign_listing(graph, text).done(), "the longest listing");
    expect(text.size() == 39856 && text.size() < leafgraph::listing_room(), "its length");
    expect(leafgraph::graph_length(text) == graph.size(), "its graph's length");
    expect(leafgraph::read_listing(text, made).done() && made == graph, "it is read back");
}

// A refused writing keeps every byte and gives no text.
void expect_not_listed(const Block &graph, std::size_t length, Reply expected, const char *what) {
    std::string room(length, '!'), own = "something";
    const auto [reply, text] = leafgraph::write_listing(graph, room);
    expect(reply == expected && !reply.done() && text.empty(), what);
    expect(room == std::string(length, '!'), "a refused writing keeps every byte");
    if (reply.bad_graph()) {
        expect(leafgraph::assign_listing(graph, own) == expected && own == "something", what);
    }
}

void test_listing_refusals() {
    for (const graph_fault &fault : all_graph_faults()) {
        const Block graph = block_with(fault);
        expect_not_listed(graph, LONGEST_TEXT, leafgraph::check_graph(graph), fault.what);
        expect_not_listed(graph, 0, leafgraph::check_graph(graph), "a bad graph comes first");
    }
    for (const listing_call &call : listing_calls) {
        for (std::size_t length = 0; length < call.text_len; ++length) {
            expect_not_listed(block_of(call.table), length, Reply(Code::short_text), call.what);
        }
    }
}

// A refused reading keeps every byte, whatever is lent.
Reply refused_reading(std::string_view text, std::size_t length) {
    Block graph(length, 0xaa);
    const Reply reply = leafgraph::read_listing(text, graph);
    expect(!reply.done() && graph == Block(length, 0xaa), "a refused reading keeps every byte");
    expect(!reply.bad_graph() && !reply.bad_rule() && reply.value() == 0, "and is about no block");
    return reply;
}

void test_reading_refusals() {
    for (const text_fault &fault : text_faults) {
        const std::string_view text(fault.text, fault.text_len);
        for (const std::size_t length : {leafgraph::graph_length(text), std::size_t{1}}) {
            const Reply reply = refused_reading(text, length);
            expect(reply.code() == Code::not_a_listing && reply.place() == fault.place, fault.what);
            expect(leafgraph::place_in(reply, text) == Place{PlaceKind::text_byte, fault.place},
                   fault.what);
        }
    }
    for (const auto &unsound : unsound_listings) {
        const std::string_view text(unsound.text, unsound.text_len);
        for (const std::size_t length : {leafgraph::graph_length(text), std::size_t{1}}) {
            const Reply reply = refused_reading(text, length);
            expect(reply == Reply(Code::unsound_graph), unsound.what);
            expect(leafgraph::place_in(reply, text).kind == PlaceKind::none, unsound.what);
        }
    }
    for (const std::size_t length : bad_buffer_lengths) {
        expect(refused_reading(text_of(listing_calls[0]), length)
                   == Reply(Code::bad_buffer_length), "a graph buffer of another length");
    }
}

// What the first line tells, and nothing more.
void test_graph_length() {
    const auto length = [](std::string_view text) { return leafgraph::graph_length(text); };
    expect(length("graph 1\n") == 72 && length("graph 512\n") == 24600, "the least, the largest");
    expect(length("graph 37\nno listing") == 24 + 48 * 37, "nothing is judged");
    expect(length("graph 37") == 24 + 48 * 37, "the text may end there");
    expect(length("graph 0\n") == 0 && length("graph 513\n") == 0, "no number of slots");
    expect(length("graph 1000\n") == 0 && length("graph 5123\n") == 0, "nor a longer one");
    expect(length("graph 999999999999999999999\n") == 0, "nor this");
    expect(length("graph \n") == 0 && length("graph -3\n") == 0, "no number");
    expect(length("") == 0 && length("gra") == 0 && length("Graph 3\n") == 0, "no first line");
    const std::string text = "graph 512"; // on the heap, with no zero byte of its own to read
    for (std::size_t cut = 0; cut <= text.size(); ++cut) {
        const std::vector<char> part(text.begin(), text.begin() + static_cast<std::ptrdiff_t>(cut));
        const std::size_t slots[] = {0, 5, 51, 512};
        expect(leafgraph::graph_length(part) == (cut < 7 ? 0 : 24 + 48 * slots[cut - 6]), "cut");
    }
}

// The same calls through every kind of buffer.
void test_kinds_of_buffer() {
    const Block graph = two_relus_graph(), rule = two_relus_rule();
    std::uint8_t array[32] = {};
    std::array<std::byte, 32> map = {};
    std::array<std::uint8_t, 168> table = {};
    std::copy(graph.begin(), graph.end(), table.begin());
    std::byte rule_bytes[80];
    std::memcpy(rule_bytes, rule.data(), sizeof rule_bytes);
    const std::string text(rule.begin(), rule.end());
    expect(table.size() == graph.size() && sizeof rule_bytes == rule.size(), "the lengths");
    expect(leafgraph::find_match(table, text, 0, array).done(), "std::array, string, array");
    expect(leafgraph::find_match(graph, std::string_view(text), 0, map).done(), "string_view");
    expect(std::memcmp(array, map.data(), sizeof array) == 0, "the same map");
    expect(leafgraph::check_rule({text.data(), text.size()}).done(), "pointer and length");
    expect(leafgraph::rewrite({table.data(), table.size()}, rule_bytes, 0,
                              {map.data(), map.size()}).done(), "pointers and lengths");
    expect(Block(table.begin(), table.end()) == one_relu_graph(), "the array was rewritten");
    std::byte list[6];
    expect(leafgraph::moves_length(table) == sizeof list, "two bytes for each of three slots");
    expect(leafgraph::sweep(table).done(), "a swept array");
    expect(leafgraph::squeeze({table.data(), table.size()}, list).moves[1] == 1, "pointer, array");
    make_version_1(table.data());
    expect(leafgraph::wants_import(table) && leafgraph::import_graph(table).done(), "std::array");
    expect(leafgraph::stored_count(table, 1) == 1, "the count of an array's slot");
    expect(leafgraph::is_read_elsewhere(graph, text, array, 2).yes(), "vector, string, array");
    expect(leafgraph::is_read_elsewhere(graph, rule_bytes, map, 1).no(), "arrays of std::byte");
#if __cplusplus > 201703L
    Block copy = graph;
    expect(leafgraph::rewrite(std::span(copy), std::span<const std::uint8_t>(rule), 0,
                              std::span(map)).done(), "std::span");
    expect(copy == one_relu_graph(), "the span was rewritten");
    expect(leafgraph::sweep(std::span(copy)).done(), "a swept span");
    expect(leafgraph::squeeze(std::span(copy), std::span(list)).done(), "squeezed spans");
    make_version_1(copy.data());
    expect(leafgraph::import_graph(std::span(copy)).done(), "an imported span");
    expect(leafgraph::is_read_elsewhere(std::span(graph), std::span(rule), std::span(map), 2).yes(),
           "spans to ask about");
#endif
}

// Texts in every kind of buffer.
void test_kinds_of_text_buffer() {
    const listing_call &call = listing_calls[0];
    const Block graph = block_of(call.table);
    std::array<char, LONGEST_TEXT> room = {};
    std::uint8_t bytes[LONGEST_TEXT], table[TABLE_LENGTH];
    std::vector<std::byte> made(TABLE_LENGTH);
    const Listed listed = leafgraph::write_listing(graph, room);
    expect(listed.text == text_of(call), "std::array");
    expect(leafgraph::write_listing(graph, bytes).text == listed.text, "array");
    expect(leafgraph::read_listing(listed.text, table).done(), "string_view, array");
    expect(leafgraph::read_listing(std::string(listed.text), made).done(), "string, vector");
    expect(leafgraph::read_listing({bytes, listed.length()}, table).done(), "pointer and length");
    expect(std::memcmp(table, graph.data(), graph.size()) == 0, "the array holds the graph");
    expect(std::memcmp(made.data(), graph.data(), graph.size()) == 0, "and so does the vector");
#if __cplusplus > 201703L
    Block copy(graph.size());
    expect(leafgraph::write_listing(std::span(graph), std::span(room)).text == text_of(call),
           "spans");
    expect(leafgraph::read_listing(std::span(room).first(listed.length()), std::span(copy)).done()
               && copy == graph, "spans to read");
#endif
}

void test_empty_buffers() {
    Block graph = two_relus_graph();
    const Block rule = two_relus_rule();
    Map map;
    expect(leafgraph::check_graph({nullptr, 0}).bad_graph(), "null graph");
    expect(leafgraph::check_rule(Bytes()).bad_rule(), "no rule");
    expect(leafgraph::check_graph(Block()).bad_graph(), "an empty vector");
    expect(leafgraph::find_match({nullptr, 0}, rule, 0, map).bad_graph(), "search");
    expect(leafgraph::find_match(graph, {nullptr, 0}, 0, map).bad_rule(), "search");
    expect(leafgraph::rewrite(graph, rule, 0, {nullptr, 0}).code() == Code::bad_map_length,
           "a null map");
    expect(leafgraph::detail::lent(Bytes()).data() != nullptr, "the library never gets null");
    expect(leafgraph::detail::lent(WritableBytes()).data() != nullptr, "nor to write to");
    expect(leafgraph::rewrite(WritableBytes(), rule, 0, map).bad_graph(), "a null graph");
    expect(leafgraph::sweep({nullptr, 0}).bad_graph(), "a null graph to sweep");
    expect(leafgraph::squeeze({nullptr, 0}, {nullptr, 0}).reply.bad_graph(), "nothing to squeeze");
    expect(leafgraph::squeeze(graph, {nullptr, 0}).reply.code() == Code::bad_moves_length,
           "a null list");
    expect(leafgraph::moves_length({nullptr, 0}) == 0, "no graph has no slots");
    expect(leafgraph::import_graph({nullptr, 0}).bad_graph(), "a null graph to import");
    expect(!leafgraph::wants_import({nullptr, 0}), "no graph wants no import");
    expect_no_answer(leafgraph::is_read_elsewhere({nullptr, 0}, {nullptr, 0}, map, 0),
                     Code::bad_graph_header, "a null graph to ask about");
    expect_no_answer(leafgraph::is_read_elsewhere(graph, {nullptr, 0}, map, 0),
                     Code::bad_rule_header, "a null rule");
    expect_no_answer(leafgraph::is_read_elsewhere(graph, rule, {nullptr, 0}, 0),
                     Code::bad_map_length, "a null map to ask about");
    expect(leafgraph::write_listing({nullptr, 0}, {nullptr, 0}).reply.bad_graph(), "no graph");
    expect(leafgraph::write_listing(graph, {nullptr, 0}).reply.code() == Code::short_text,
           "no room");
    expect(leafgraph::read_listing({nullptr, 0}, graph) == Reply(Code::not_a_listing), "no text");
    expect(leafgraph::read_listing(text_of(listing_calls[0]), {nullptr, 0}).code()
               == Code::bad_buffer_length, "a null graph to read into");
    expect(leafgraph::graph_length({nullptr, 0}) == 0, "no text has no first line");
}

void test_null_with_a_length() {
    Block graph = two_relus_graph();
    const Block rule = two_relus_rule(), before = graph;
    Map map;
    const Bytes null = {nullptr, 1};
    const WritableBytes writable_null = {nullptr, 32};
    expect(leafgraph::check_graph(null).code() == Code::null_buffer, "graph to check");
    expect(leafgraph::check_rule(null).code() == Code::null_buffer, "rule to check");
    expect(leafgraph::find_match(null, rule, 0, map).code() == Code::null_buffer, "graph");
    expect(leafgraph::find_match(graph, null, 0, map).code() == Code::null_buffer, "rule");
    expect(leafgraph::find_match(graph, rule, 0, writable_null).code() == Code::null_buffer, "map");
    expect(leafgraph::rewrite(writable_null, rule, 0, map).code() == Code::null_buffer, "graph");
    expect(leafgraph::rewrite(graph, null, 0, map).code() == Code::null_buffer, "rule");
    expect(leafgraph::rewrite(graph, rule, 0, writable_null).code() == Code::null_buffer, "map");
    expect(leafgraph::sweep(writable_null).code() == Code::null_buffer, "graph to sweep");
    expect(leafgraph::squeeze(writable_null, map).reply.code() == Code::null_buffer, "graph");
    expect(leafgraph::squeeze(graph, writable_null).reply.code() == Code::null_buffer, "list");
    expect(leafgraph::moves_length(writable_null) == 0, "a null graph has no slots");
    expect(leafgraph::import_graph(writable_null).code() == Code::null_buffer, "to import");
    expect(!leafgraph::wants_import(null), "a null graph wants no import");
    expect(leafgraph::stored_count(null, 0) == 0, "nor does it have a count");
    expect_no_answer(leafgraph::is_read_elsewhere(null, rule, map, 1), Code::null_buffer, "graph");
    expect_no_answer(leafgraph::is_read_elsewhere(graph, null, map, 1), Code::null_buffer, "rule");
    expect_no_answer(leafgraph::is_read_elsewhere(graph, rule, null, 1), Code::null_buffer, "map");
    expect(leafgraph::write_listing(null, map).reply.code() == Code::null_buffer, "graph to list");
    const Listed listed = leafgraph::write_listing(graph, writable_null);
    expect(listed.reply.code() == Code::null_buffer && listed.text.empty(), "text to write");
    expect(leafgraph::read_listing(null, graph).code() == Code::null_buffer, "text to read");
    expect(leafgraph::read_listing(text_of(listing_calls[0]), writable_null).code()
               == Code::null_buffer, "graph to read into");
    expect(leafgraph::graph_length(null) == 0, "a null text has no first line");
    expect(graph == before, "the graph is as it came");
}

// All three calls with parts of one block: graph, rule and map at these offsets.
void expect_overlap(std::size_t graph_at, std::size_t rule_at, std::size_t map_at, bool overlap) {
    const Block graph = two_relus_graph(), rule = two_relus_rule();
    Block all(400, 0xaa);
    const auto at = [&](std::size_t offset) { return all.data() + offset; };
    std::memcpy(at(map_at), Block(32, 0xaa).data(), 32);
    std::memcpy(at(rule_at), rule.data(), rule.size());
    std::memcpy(at(graph_at), graph.data(), graph.size());
    const Block before = all;
    const Reply found = leafgraph::find_match({at(graph_at), graph.size()},
                                              {at(rule_at), rule.size()}, 0, {at(map_at), 32});
    expect((found.code() == Code::overlap) == overlap, "overlap in a search");
    expect(overlap ? all == before : found.done(), "nothing was touched, or it is found");
    const Answer answer = leafgraph::is_read_elsewhere({at(graph_at), graph.size()},
                                                       {at(rule_at), rule.size()},
                                                       {at(map_at), 32}, 2);
    expect((answer.reply.code() == Code::overlap) == overlap, "overlap in a question");
    expect(answer.yes() == !overlap && !answer.no(), "the output is read elsewhere, or no answer");
    const Reply reply = leafgraph::rewrite({at(graph_at), graph.size()},
                                           {at(rule_at), rule.size()}, 0, {at(map_at), 32});
    expect((reply.code() == Code::overlap) == overlap, "overlap in a rewriting");
    expect(overlap ? all == before : reply.done(), "nothing was touched, or it is done");
}

void test_overlap() {
    const std::size_t graph = two_relus_graph().size(), rule = two_relus_rule().size();
    expect_overlap(0, graph, graph + rule, false);
    expect_overlap(rule + 32, 32, 0, false);
    expect_overlap(0, graph - 1, graph + rule, true);
    expect_overlap(0, graph, graph + rule - 1, true);
    expect_overlap(0, 250, graph - 1, true);
    expect_overlap(31, 250, 0, true);
    expect_overlap(79, 0, 300, true);
    expect_overlap(0, 200, 70, true);
    expect_overlap(32, 200, 0, false);
    Block block = two_relus_graph();
    const Block rule_block = two_relus_rule();
    expect(leafgraph::rewrite(block, rule_block, 0, {block.data() + 10, 0}).code()
               == Code::bad_map_length, "an empty buffer overlaps nothing");
}

// A graph and its list at these offsets of one block.
void expect_squeeze_overlap(std::size_t graph_at, std::size_t list_at, bool overlap) {
    const Block graph = two_relus_graph();
    const std::size_t length = leafgraph::moves_length(graph);
    Block all(200, 0xaa);
    std::memcpy(all.data() + graph_at, graph.data(), graph.size());
    const Block before = all;
    const Squeezed squeezed = leafgraph::squeeze({all.data() + graph_at, graph.size()},
                                                 {all.data() + list_at, length});
    expect((squeezed.reply.code() == Code::overlap) == overlap, "overlap in a squeeze");
    expect(overlap ? all == before && squeezed.moves.size() == 0 : squeezed.done(),
           "nothing was touched, or it is done");
}

void test_squeeze_overlap() {
    const std::size_t graph = two_relus_graph().size();
    expect_squeeze_overlap(0, graph, false);
    expect_squeeze_overlap(6, 0, false);
    expect_squeeze_overlap(0, graph - 1, true);
    expect_squeeze_overlap(5, 0, true);
    expect_squeeze_overlap(0, 0, true);
}

// A graph and the room for its listing at these offsets of one block; and the listing, and the
// room for its graph.
void expect_listing_overlap(std::size_t graph_at, std::size_t text_at, bool overlap) {
    const listing_call &call = listing_calls[0];
    const Block graph = block_of(call.table);
    Block all(700, 0xaa);
    const WritableBytes block = {all.data() + graph_at, graph.size()};
    const WritableBytes text = {all.data() + text_at, call.text_len};
    std::memcpy(block.data(), graph.data(), graph.size());
    Block before = all;
    const Listed listed = leafgraph::write_listing(block, text);
    expect((listed.reply.code() == Code::overlap) == overlap, "overlap in a writing");
    expect(overlap ? all == before && listed.text.empty() : listed.done(),
           "nothing was touched, or it is done");
    std::memcpy(text.data(), call.text, call.text_len);
    before = all;
    const Reply read = leafgraph::read_listing(text, block);
    expect((read.code() == Code::overlap) == overlap, "overlap in a reading");
    expect(overlap ? all == before : read.done(), "nothing was touched, or it is done");
}

void test_listing_overlap() {
    const std::size_t graph = TABLE_LENGTH, text = listing_calls[0].text_len;
    expect_listing_overlap(0, graph, false);
    expect_listing_overlap(text, 0, false);
    expect_listing_overlap(0, graph - 1, true);
    expect_listing_overlap(text - 1, 0, true);
    expect_listing_overlap(0, 0, true);
    expect_listing_overlap(0, 70, true);
    std::string own(reinterpret_cast<const char *>(block_of(listing_calls[0].table).data()),
                    TABLE_LENGTH);
    expect(leafgraph::assign_listing(own, own).done() && own == text_of(listing_calls[0]),
           "a string that holds the graph may become its listing");
}

void test_words() {
    std::set<std::string_view> texts;
    for (const Code code :
         {Code::done, Code::bad_map_length, Code::bad_graph_header, Code::bad_graph_record,
          Code::bad_graph_name, Code::graph_has_cycle, Code::bad_graph_count,
          Code::bad_rule_header, Code::bad_rule_record, Code::bad_rule_order,
          Code::bad_rule_outputs, Code::bad_rule_expression, Code::bad_moves_length,
          Code::not_a_match, Code::no_such_vertex, Code::short_text, Code::not_a_listing,
          Code::unsound_graph, Code::bad_buffer_length, Code::no_match, Code::no_result,
          Code::no_room, Code::cycle, Code::overlap, Code::null_buffer}) {
        texts.insert(leafgraph::what(code));
        expect(Reply(code).what() == std::string_view(leafgraph::what(code)), "the reply's words");
    }
    expect(texts.size() == 25, "each code has words of its own");
    expect(texts.count(leafgraph::what(static_cast<Code>(200))) == 0, "an unknown number too");
    texts.clear();
    for (const PlaceKind kind : {PlaceKind::none, PlaceKind::slot, PlaceKind::output,
                                 PlaceKind::source_vertex, PlaceKind::target_vertex,
                                 PlaceKind::node, PlaceKind::text_byte,
                                 static_cast<PlaceKind>(200)}) {
        texts.insert(leafgraph::what(kind));
    }
    expect(texts.size() == 8, "each kind of place has words of its own");
}

// Whether an enumeration still has the name that the library's version 1 had for all bad
// graphs.
template <class Enumeration, class = void>
constexpr bool has_bad_graph = false;
template <class Enumeration>
constexpr bool has_bad_graph<Enumeration, std::void_t<decltype(Enumeration::bad_graph)>> = true;

constexpr bool same(const char *one, std::string_view other) {
    return std::string_view(one) == other;
}

void test_numbers_of_faults() {
    static_assert(!has_bad_graph<Code>, "a caller that names it must not compile");
    static_assert(Reply(Code::bad_graph_header).number() == 20);
    static_assert(Reply(Code::graph_has_cycle).number() == 23);
    static_assert(Reply(Code::bad_graph_count).number() == 24);
    static_assert(Reply(Code::bad_rule_header).number() == 30);
    static_assert(Reply(Code::bad_rule_expression).number() == 34);
    static_assert(Reply(Code::bad_moves_length).number() == 40);
    static_assert(Reply(Code::not_a_match).number() == 41);
    static_assert(Reply(Code::no_such_vertex).number() == 42);
    static_assert(Reply(Code::short_text).number() == 43);
    static_assert(Reply(Code::not_a_listing).number() == 44);
    static_assert(Reply(Code::unsound_graph).number() == 45);
    static_assert(Reply(Code::bad_buffer_length).number() == 46);
    static_assert(!Reply(Code::unsound_graph).bad_graph());
    static_assert(!Reply(Code::bad_moves_length).bad_graph());
    static_assert(Reply(std::uint64_t{29}).bad_graph() && !Reply(std::uint64_t{19}).bad_graph(),
                  "a later kind of fault is a bad graph, too");
    static_assert(Reply(std::uint64_t{39}).bad_rule() && !Reply(std::uint64_t{40}).bad_rule());
    static_assert(!Reply(Code::bad_graph_name).bad_rule() && !Reply(Code::cycle).bad_graph());
    static_assert(!Reply(Code::overlap).bad_graph() && !Reply(Code::null_buffer).bad_rule());
    static_assert(same(leafgraph::what(Code::graph_has_cycle), "bad graph block: it has a cycle"));
    static_assert(same(leafgraph::what(PlaceKind::target_vertex), "target vertex"));
    static_assert(Place{PlaceKind::slot, 1} != Place{PlaceKind::node, 1}
                  && Place{PlaceKind::slot, 1} != Place{PlaceKind::slot, 2}
                  && Place{PlaceKind::slot, 1} == Place{PlaceKind::slot, 1});
}

// The rules of faults.h have three source vertices.
template <class Fault>
void expect_place(const Fault &fault, Reply reply, const Block &block) {
    const std::uint32_t before = fault.counted == TARGET_VERTEX ? 3 : 0;
    const Place place = {static_cast<PlaceKind>(fault.counted), fault.place - before};
    expect(reply.number() == fault.number && reply.place() == fault.place, fault.what);
    expect(leafgraph::place_in(reply, block) == place, fault.what);
}

void test_places() {
    for (const graph_fault &fault : all_graph_faults()) {
        const Block graph = block_with(fault);
        const Reply reply = leafgraph::check_graph(graph);
        expect(reply.bad_graph() && !reply.bad_rule(), fault.what);
        expect_place(fault, reply, graph);
    }
    for (const graph_fault &fault : all_import_faults()) {
        Block graph = version_1_with(fault);
        expect_place(fault, leafgraph::import_graph(graph), graph);
    }
    for (const rule_fault &fault : rule_faults) {
        const Block rule = block_with(fault);
        const Reply reply = leafgraph::check_rule(rule);
        expect(reply.bad_rule() && !reply.bad_graph(), fault.what);
        expect_place(fault, reply, rule);
    }
}

// Whatever reply and bytes it is given, place_in reads no byte outside them: the
// sanitizers and valgrind see to that here.
void expect_a_place_in_any_bytes(Reply reply) {
    for (const std::size_t length : {0U, 1U, 7U, 10U, 24U, 72U, 80U, 104U}) {
        for (const char byte : {'\0', '\1', '\6', '\377'}) {
            const Place place = leafgraph::place_in(reply, std::string(length, byte));
            expect(place.kind <= PlaceKind::text_byte, "some kind of place");
        }
    }
    expect(leafgraph::place_in(reply, {nullptr, 1}).kind == PlaceKind::none, "null");
}

void test_places_in_any_bytes() {
    static_assert(noexcept(leafgraph::place_in(Reply(Code::done), Bytes())));
    for (std::uint64_t number = 0; number < 256; ++number) {
        for (const std::uint64_t place : {0U, 1U, 15U, 255U, 511U, 65535U, 0xffffffffU}) {
            expect_a_place_in_any_bytes(Reply(number | place << 8));
        }
    }
    const Block graph = two_relus_graph();
    expect(leafgraph::place_in(Reply(Code::done), graph).kind == PlaceKind::none, "done");
    expect(leafgraph::place_in(Reply(Code::no_match), graph).kind == PlaceKind::none, "no match");
}

void test_packed_replies() {
    constexpr std::uint64_t number = 0xffffff1234567804;
    constexpr Reply packed(number);
    static_assert(packed.code() == Code::no_match && packed.place() == 0x12345678);
    static_assert(packed.value() == 0xffffff && Reply(Code::no_match).value() == 0);
    expect(packed.number() == lg_reply_number(number), "the number as the C header reads it");
    expect(packed.place() == lg_reply_place(number), "the place as the C header reads it");
    expect(packed.value() == lg_reply_value(number), "the value as the C header reads it");
    static_assert(packed != Reply(Code::no_match) && Reply(Code::done) == Reply(std::uint64_t{0}));
    static_assert(Reply(std::uint64_t{1} << 40) != Reply(Code::done), "the value counts, too");
    static_assert(std::is_convertible_v<WritableBytes, Bytes>);
    static_assert(!std::is_convertible_v<Bytes, WritableBytes>);
    static_assert(!std::is_convertible_v<const Block &, WritableBytes>);
    static_assert(!std::is_convertible_v<Block, WritableBytes>, "what it writes would be lost");
    static_assert(!std::is_convertible_v<std::vector<int>, Bytes>);
    static_assert(!std::is_convertible_v<Reply, bool>, "only where a condition is asked");
    static_assert(noexcept(leafgraph::rewrite(WritableBytes(), Bytes(), 0, WritableBytes())));
    static_assert(noexcept(leafgraph::is_read_elsewhere(Bytes(), Bytes(), Map(), 0).yes()));
    static_assert(noexcept(leafgraph::sweep(WritableBytes())));
    static_assert(noexcept(leafgraph::import_graph(WritableBytes())));
    static_assert(noexcept(leafgraph::wants_import(Bytes())));
    static_assert(noexcept(leafgraph::stored_count(Bytes(), 0)));
    static_assert(noexcept(leafgraph::write_listing(Bytes(), WritableBytes()).length()));
    static_assert(noexcept(leafgraph::read_listing(Bytes(), WritableBytes())));
    static_assert(noexcept(leafgraph::graph_length(Bytes())));
    static_assert(noexcept(leafgraph::squeeze(WritableBytes(), WritableBytes()).moves[0]));
    static_assert(!std::is_convertible_v<Squeezed, bool> && !std::is_convertible_v<Bytes, Moves>);
}

// Whether a graph is written as a text that is read back as that graph.
bool kept_by_text(const Block &graph) {
    std::array<char, LONGEST_TEXT> room;
    Block made(graph.size());
    const Listed listed = leafgraph::write_listing(graph, room);
    return listed.done() && leafgraph::read_listing(listed.text, made).done() && made == graph;
}

// Whether an import, a sweep and a squeeze leave what they leave in other tests.
bool tidied() {
    const squeeze_call &call = squeeze_calls[2]; // nothing of it is swept
    Block graph = block_of(call.before), list(MOVES_LENGTH);
    make_version_1(graph.data());
    return leafgraph::import_graph(graph).done() && leafgraph::sweep(graph).done()
           && leafgraph::squeeze(graph, list).done() && graph == block_of(call.after);
}

// One rule, and a graph that is only read, lent to all; and a graph, a map and a list for each
// thread.
void test_threads() {
    const Block rule = two_relus_rule(), before = two_relus_graph(), after = one_relu_graph();
    std::array<int, 4> wrong = {};
    std::vector<std::thread> threads;
    for (int &count : wrong) {
        threads.emplace_back([&] {
            for (int time = 0; time < 2000; ++time) {
                Block graph = before;
                Map map;
                const bool done = leafgraph::rewrite(graph, rule, 0, map).done();
                const bool asked = leafgraph::is_read_elsewhere(before, rule, map, 1).no();
                const bool kept = kept_by_text(before) && kept_by_text(after);
                count += done && asked && kept && graph == after && tidied() ? 0 : 1;
            }
        });
    }
    for (std::thread &thread : threads) {
        thread.join();
    }
    expect(wrong == std::array<int, 4>{}, "threads do not disturb each other");
}

} // namespace

int main() {
    test_rewriting_replies();
    test_search_and_checks();
    test_result_of_rewriting();
    test_constants();
    test_read_elsewhere();
    test_read_elsewhere_with_a_map();
    test_read_elsewhere_refusals();
    test_sweep();
    test_squeeze();
    test_sweep_and_squeeze_refusals();
    test_import();
    test_what_wants_no_import();
    test_stored_counts();
    test_listings();
    test_longest_listing();
    test_listing_refusals();
    test_reading_refusals();
    test_graph_length();
    test_kinds_of_buffer();
    test_kinds_of_text_buffer();
    test_empty_buffers();
    test_null_with_a_length();
    test_overlap();
    test_squeeze_overlap();
    test_listing_overlap();
    test_words();
    test_numbers_of_faults();
    test_places();
    test_places_in_any_bytes();
    test_packed_replies();
    test_threads();
    std::printf("wrapper test in C++%ld: %d failed\n", __cplusplus / 100 % 100, failures);
    return failures == 0 ? 0 : 1;
}
