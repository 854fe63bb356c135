// Holds what the tool finds to read a matched slot against the library's answer:
// test_readers FILE...
//
// The files are sound graphs and rules. Every rule is tried on every graph, also where that
// has another output, from every start, and again on what its rewritings leave. The look at
// the block must find a reader elsewhere just where the library says yes.

#include <string>
#include <vector>

#include "expectations.hpp"
#include "host/counts.h"
#include "leafgraph.hpp"
#include "readers.hpp"

namespace leafgraph::tool {
namespace {

constexpr int rewritings_at_most = 40;

std::string kind_of(std::size_t vertex, const Rule &rule) {
    for (const unsigned output : rule.source_outputs) {
        if (output == vertex) {
            return "an output";
        }
    }
    return rule.source[vertex].kind == Kind::constant ? "a const" : "an interior vertex";
}

// All vertices of a match, and the first number that is none.
void ask_about_all(const Block &graph, const Block &rule, const Match &match) {
    const Graph read = read_graph(graph);
    for (std::size_t vertex = 0; vertex <= match.rule.source.size(); ++vertex) {
        const Answer answer = is_read_elsewhere(graph, rule, match.slots, vertex);
        const bool is_asked = vertex < match.rule.source.size()
                              && !match.rule.source[vertex].is_rule_input();
        expect(answer.done() == is_asked, std::string("an answer or not: ") + answer.reply.what());
        if (is_asked) {
            const unsigned slot = match.slots[vertex];
            const Readers readers = readers_of(read, match, slot);
            expect(answer.yes() == readers.elsewhere() && answer.no() == !answer.yes(),
                   answer_line(answer.yes(), vertex, slot, readers));
            seen[kind_of(vertex, match.rule) + (answer.yes() ? ": yes" : ": no")]++;
        }
    }
}

void try_rule(Block graph, const Block &rule) {
    const std::size_t slots = read_graph(graph).slots.size();
    bool rewritten = true;
    for (int time = 0; rewritten && time < rewritings_at_most; ++time) {
        Map map;
        for (std::size_t start = 0; start < slots; ++start) {
            if (!find_match(graph, rule, start, map)) {
                break;
            }
            ask_about_all(graph, rule, {read_rule(rule), start, map});
        }
        rewritten = rewrite(graph, rule, 0, map).done();
    }
}

// The graph with slot 0 as its first output, so that nothing names what was that one.
Block with_another_output(Block graph) {
    graph[10] = graph[11] = 0;
    put_counts(graph.data());
    expect(check_graph(graph).done(), "slot 0 is a vertex");
    return graph;
}

} // namespace

void try_files(int count, char **files) {
    std::vector<Block> graphs, rules;
    for (int file = 1; file < count; ++file) {
        const Block block = read_file(files[file]);
        (check_rule(block) ? rules : graphs).push_back(block);
        expect(check_rule(block) || check_graph(block), std::string(files[file]) + " is sound");
    }
    for (const Block &graph : graphs) {
        for (const Block &rule : rules) {
            try_rule(graph, rule);
            try_rule(with_another_output(graph), rule);
        }
    }
    expect_seen({"a const: yes", "a const: no", "an interior vertex: no", "an output: yes",
                 "an output: no"});
    expect(seen.count("an interior vertex: yes") == 0, "that would be no match");
}

} // namespace leafgraph::tool

int main(int count, char **files) {
    using namespace leafgraph::tool;
    return run_test("readers", [&] { try_files(count, files); });
}
