// Holds what the tool says of refused blocks and texts against the library: test_faults FILE...
//
// The files are sound blocks, or graphs of version 1 that can be imported. Each is damaged
// again and again, and for each reply of the library there must be words for the fault in its
// place, and none for a fault that the library would have given before it: neither of an
// earlier kind nor in a lower place. The graphs' listings are damaged, too, and what the tool
// reads of them is what the library reads.

#include <algorithm>
#include <random>
#include <string>
#include <vector>

#include "expectations.hpp"
#include "graph_fault.hpp"
#include "listed_block.hpp"
#include "rule_fault.hpp"
#include "text_fault.hpp"

namespace leafgraph::tool {
namespace {

constexpr int times_each = 20000;
constexpr int texts_each = 200; // the library is asked about every byte in the place of each

Reply reply_of(Code code, std::size_t place) {
    return Reply(static_cast<std::uint64_t>(code) | std::uint64_t{place} << 8);
}

// The words for a fault of this kind in some place below the end; empty if there are
// none.
template <class Say>
Fault words_below(Say say, Code code, std::size_t end) {
    for (std::size_t place = 0; place < end; ++place) {
        const Fault fault = say(reply_of(code, place));
        if (!fault.empty()) {
            return fault;
        }
    }
    return "";
}

// The kinds are in the library's order, and places are below `places`. Lower places than
// the reply's do not count where they may be those of something else that is bad, too.
template <class Say>
void expect_agreement(Say say, const std::vector<Code> &kinds, std::size_t places, Reply reply,
                      bool lower_places_count) {
    for (const Code kind : kinds) {
        if (kind == reply.code()) {
            break;
        }
        const Fault fault = words_below(say, kind, places);
        expect(fault.empty(), "reply " + std::to_string(reply.number()) + ", but: " + fault);
    }
    if (reply.done()) {
        return;
    }
    expect(!say(reply).empty(), "words for reply " + std::to_string(reply.number()));
    if (lower_places_count) {
        const Fault fault = words_below(say, reply.code(), reply.place());
        expect(fault.empty(), "in a lower place than " + std::to_string(reply.place()) + ": "
                                  + fault);
    }
}

void note(Reply reply, PlaceKind kind, const std::string &call = "") {
    seen["reply " + call + std::to_string(reply.number()) + " " + what(kind)]++;
}

// A graph of which the library said this, where it wanted this version.
void expect_graph_words(const Block &graph, Reply reply, unsigned version) {
    const PlaceKind kind = place_in(reply, graph).kind;
    const auto say = [&](Reply asked) { return graph_fault(asked, graph, version); };
    const std::size_t slots = Fields(graph).number16(6);
    std::vector<Code> kinds = {Code::bad_graph_header, Code::bad_graph_record,
                               Code::bad_graph_name, Code::graph_has_cycle};
    if (version == LG_GRAPH_VERSION) {
        kinds.push_back(Code::bad_graph_count);
    }
    // Where a slot has a bad input, an output with a lower number may be bad, too.
    const bool is_input = reply.code() == Code::bad_graph_name && kind == PlaceKind::slot;
    expect_agreement(say, kinds, slots, reply, !is_input);
    for (std::size_t slot = 0; is_input && slot < reply.place(); ++slot) {
        expect(place_in(reply_of(reply.code(), slot), graph).kind != PlaceKind::slot,
               "a slot before the one that is given");
    }
    note(reply, kind, version == LG_VERSION_TO_IMPORT ? "import " : "");
}

void try_graph(const Block &graph) {
    expect_graph_words(graph, check_graph(graph), LG_GRAPH_VERSION);
}

// What was imported is not the block that was damaged.
void try_import(const Block &graph) {
    Block lent = graph;
    const Reply reply = import_graph(lent);
    expect_graph_words(graph, reply, LG_VERSION_TO_IMPORT);
    expect(!reply.done() || check_graph(lent).done(), "what is imported is sound");
}

void try_rule(const Block &rule) {
    const Reply reply = check_rule(rule);
    const PlaceKind kind = place_in(reply, rule).kind;
    const auto say = [&](Reply asked) { return rule_fault(asked, rule); };
    const RuleView view(rule);
    // Where a node is bad, a vertex with a lower number may use it badly, too.
    const bool lower = kind != PlaceKind::node;
    expect_agreement(say,
                     {Code::bad_rule_header, Code::bad_rule_record, Code::bad_rule_order,
                      Code::bad_rule_outputs, Code::bad_rule_expression},
                     view.vertices(), reply, lower);
    const std::size_t sound_nodes = kind == PlaceKind::node ? reply.place() : view.nodes();
    if (reply.done() || reply.code() == Code::bad_rule_expression) {
        for (std::size_t node = 0; node < sound_nodes; ++node) {
            expect(node_fault(view, node).empty(), "a node before the one that is given");
        }
    }
    note(reply, kind);
}

// Up to three bytes changed, mostly to small numbers, which are what is confused; now and
// then a byte more or less.
Block damaged(const Block &sound, std::mt19937 &random) {
    Block block = sound;
    const std::size_t changes = 1 + random() % 3;
    for (std::size_t change = 0; change < changes; ++change) {
        const std::size_t number = random() % 4 == 0 ? random() : random() % 20;
        block[random() % block.size()] = static_cast<std::uint8_t>(number);
    }
    if (random() % 100 == 0) {
        block.resize(block.size() + random() % 3 - 1);
    }
    return block;
}

// A listing's text with up to three bytes changed to others that listings have, left out or put in.
std::string damaged_text(std::string text, std::mt19937 &random) {
    const std::string letters = "0123456789012345678901234567899 -[]{}\ngraphoutcnsvlepjib";
    const std::size_t changes = random() % 4;
    for (std::size_t change = 0; change < changes; ++change) {
        const std::size_t at = random() % text.size();
        const std::string put(1, letters[random() % letters.size()]);
        const std::size_t kind = random() % 8;
        text.replace(at, kind == 0 ? 0 : 1, kind == 1 ? "" : put);
    }
    return text;
}

// What stands in the place can't, and all before it can; the words begin with that place.
void expect_text_words(const std::string &text, std::size_t place) {
    const std::string begun = text.substr(0, place);
    const std::vector<unsigned char> wanted = next_bytes(begun);
    const Reply reply = read_listing(begun, WritableBytes());
    const bool is_whole = reply.code() != Code::not_a_listing;
    const auto line = 1 + std::count(begun.begin(), begun.end(), '\n');
    const std::size_t column = place - (begun.rfind('\n') + 1) + 1;
    const Fault fault = text_fault(text, place);
    expect(is_whole || reply.place() == place, "what is before the place can begin a listing");
    expect(wanted.empty() == is_whole, "a listing that is not whole can go on");
    expect(place == text.size()
               || std::count(wanted.begin(), wanted.end(),
                             static_cast<unsigned char>(text[place])) == 0,
           "what is in the place is not wanted");
    expect(fault.find("line " + std::to_string(line) + ", column " + std::to_string(column)
                      + " (byte " + std::to_string(place) + "): ") == 0, fault);
    seen[is_whole ? "text 44 behind a listing"
                  : place == text.size() ? "text 44 at the end" : "text 44"]++;
}

void try_text(const std::string &text) {
    Block graph(graph_length(text));
    const Reply reply = read_listing(text, graph);
    if (reply.code() == Code::not_a_listing) {
        expect_text_words(text, reply.place());
        return;
    }
    const Block listed = listed_block(text);
    const Reply told = check_graph(listed);
    expect(reply.done() ? listed == graph : reply.code() == Code::unsound_graph,
           "the same block, or 45: " + text);
    expect(told.done() == reply.done(), "the tool's block is as sound as the library's: " + text);
    expect(told.done() || !graph_fault(told, listed, LG_GRAPH_VERSION).empty(), "words: " + text);
    seen["text " + std::to_string(reply.number()) + ", block " + std::to_string(told.number())]++;
}

// What the library writes of a graph is read by the tool as that graph's block; then it is damaged.
void try_listing(const Block &sound, std::mt19937 &random) {
    std::string text;
    expect(assign_listing(sound, text).done() && listed_block(text) == sound, "a listing");
    for (int time = 0; failures == 0 && time < texts_each; ++time) {
        try_text(damaged_text(text, random));
    }
}

// The kinds that the graphs of the files need not have.
void try_all_kinds() {
    std::mt19937 random(7);
    const std::string text = "graph 12\n0 const [] {-7}\n4 variable [] {1 3 8 8 1}\n"
                             "5 tuple [0 4 0] {}\n10 proj [5] {1}\n11 call 5 [10 0] {-1}\n"
                             "out 11 5 0\n";
    Block graph(graph_length(text));
    expect(read_listing(text, graph).done(), "a graph of all kinds");
    for (int time = 0; time < 4; ++time) {
        try_listing(graph, random);
    }
    try_text(text + "\n");
    try_text(text.substr(0, text.size() - 1));
    try_text("");
    try_text("graph 2\n0 const [] {1}\n1 proj [0] {0}\nout 1\n");
    try_text("graph 3\n0 const [] {1}\n1 tuple [2] {}\n2 tuple [0 1] {}\nout 1 1\n");
}

void try_file(const char *name) {
    std::mt19937 random(2);
    const Block sound = read_file(name);
    Block lent = sound;
    const bool is_graph = check_graph(sound).done(), is_old = import_graph(lent).done();
    expect(is_graph || is_old || check_rule(sound).done(), std::string(name) + " is sound");
    if (is_graph) {
        try_listing(sound, random);
    }
    for (int time = 0; failures == 0 && time < times_each; ++time) {
        const Block block = damaged(sound, random);
        is_graph ? try_graph(block) : is_old ? try_import(block) : try_rule(block);
        // Nor do the words for the other kind of block need anything of the bytes.
        graph_fault(reply_of(Code::graph_has_cycle, random() % 8), block, LG_GRAPH_VERSION);
        graph_fault(reply_of(Code::bad_graph_count, random() % 8), block, LG_GRAPH_VERSION);
        rule_fault(reply_of(Code::bad_rule_outputs, 0), block);
        rule_fault(reply_of(Code::bad_rule_expression, random() % 8), block);
    }
}

} // namespace

// Every number must be seen, and both kinds of place of the two that have two.
void try_files(int count, char **files) {
    for (int file = 1; file < count; ++file) {
        try_file(files[file]);
    }
    try_all_kinds();
    expect_seen({"reply 20 no place", "reply 21 slot", "reply 22 slot", "reply 22 output",
                 "reply 23 slot", "reply 24 slot", "reply import 20 no place",
                 "reply import 21 slot", "reply import 22 slot", "reply import 22 output",
                 "reply import 23 slot", "reply 30 no place", "reply 31 source vertex",
                 "reply 31 target vertex", "reply 32 source vertex", "reply 33 no place",
                 "reply 34 node", "reply 34 source vertex", "reply 34 target vertex",
                 "text 0, block 0", "text 44", "text 44 at the end", "text 44 behind a listing",
                 "text 45, block 21", "text 45, block 22", "text 45, block 23"});
}

} // namespace leafgraph::tool

int main(int count, char **files) {
    using namespace leafgraph::tool;
    return run_test("faults", [&] { try_files(count, files); });
}
