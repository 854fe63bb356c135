#include "commands.hpp"

#include <cstdint>
#include <string>
#include <vector>

#include "blocks.hpp"
#include "dot.hpp"
#include "failure.hpp"
#include "graph_text.hpp"
#include "graphviz.hpp"
#include "input.hpp"
#include "leafgraph.hpp"
#include "listing.hpp"
#include "names.hpp"
#include "output.hpp"
#include "readers.hpp"
#include "refusal.hpp"
#include "rewriting.hpp"
#include "rule_text.hpp"
#include "text.hpp"
#include "tidying.hpp"

namespace leafgraph::tool {
namespace {

Operators operators(const CommandLine &line) {
    return line.numbers ? Operators::as_numbers : Operators::as_names;
}

// Prints a sound graph as the line says. With counts behind the slots it is no listing any
// more.
void print_graph(const CommandLine &line, const Input &graph) {
    if (line.numbers && !line.counts) {
        print(listing_of(graph));
    } else {
        print(graph_text(read_graph(graph.bytes), operators(line),
                         line.counts ? Counts::shown : Counts::left_out));
    }
}

// How much is in a sound graph block.
std::string graph_words(const Input &input) {
    const Graph graph = read_graph(input.bytes);
    return "sound graph, " + counted(graph.slots.size(), "slot", "slots") + ", "
           + counted(count_vertices(graph), "vertex", "vertices") + ", "
           + counted(graph.outputs.size(), "output", "outputs");
}

void check(const CommandLine &line) {
    const Input input = read_graph_file(line.files[0]);
    want_sound_graph(input);
    print(printable(input.name) + ": " + graph_words(input) + "\n");
}

void check_rule(const CommandLine &line) {
    const Input input = read_rule_file(line.files[0]);
    want_sound_rule(input);
    const Rule rule = read_rule(input.bytes);
    print(printable(input.name) + ": sound rule, "
          + counted(rule.source.size(), "source vertex", "source vertices") + ", "
          + counted(rule.target.size(), "target vertex", "target vertices") + ", "
          + counted(rule.source_outputs.size(), "output", "outputs") + ", "
          + counted(rule.nodes.size(), "expression node", "expression nodes") + "\n");
}

// Finds the least match, or throws the refusal.
Match find(const Input &graph, const Input &rule, std::size_t start) {
    Map slots;
    want_done(find_match(graph.bytes, rule.bytes, start, slots), graph, rule);
    return {read_rule(rule.bytes), start, slots};
}

void match(const CommandLine &line) {
    const Input graph_input = read_graph_file(line.files[0]);
    const Input rule_input = read_rule_file(line.files[1]);
    const Match match = find(graph_input, rule_input, line.start);
    const Graph graph = read_graph(graph_input.bytes);
    std::string text;
    for (std::size_t number = 0; number < match.rule.source.size(); ++number) {
        const Pattern &vertex = match.rule.source[number];
        const Slot &slot = graph.slots.at(match.slots[number]);
        text += "source " + std::to_string(number) + " "
                + vertex_words(vertex.kind, vertex.op, Operators::as_names) + " -> slot "
                + std::to_string(match.slots[number]) + " "
                + vertex_words(slot.kind, slot.op, Operators::as_names) + "\n";
    }
    print(text);
}

// Yes or no is the library's answer; who reads the slot comes from a look at the block.
void read_elsewhere(const CommandLine &line) {
    const Input graph = read_graph_file(line.files[0]);
    const Input rule = read_rule_file(line.files[1]);
    const Match match = find(graph, rule, line.start);
    const Answer answer = is_read_elsewhere(graph.bytes, rule.bytes, match.slots, line.vertex);
    want_answered(answer.reply, graph, rule, line.vertex);
    const unsigned slot = match.slots[line.vertex];
    print(answer_line(answer.yes(), line.vertex, slot,
                      readers_of(read_graph(graph.bytes), match, slot)));
}

// Sweeps and squeezes as the line says, writes what has become of the graph, and says it
// after the reports of what was done before.
void finish(const CommandLine &line, Input &graph, std::vector<std::string> reports) {
    std::vector<std::uint8_t> list;
    if (line.sweep) {
        reports.push_back(sweep_graph(graph));
    }
    if (line.squeeze) {
        reports.push_back(squeeze_graph(graph, list));
    }
    // Before the graph: were that replaced and the list not written, nobody could tell
    // any more where its Variables went.
    if (line.moves) {
        write_output(*line.moves, list);
    }
    if (line.out) {
        write_output(*line.out, graph.bytes);
    } else {
        print_graph(line, graph);
    }
    // Last, so that nothing is called done whose result could not be written.
    for (const std::string &report : reports) {
        say(report);
    }
}

void rewrite(const CommandLine &line) {
    Input graph = read_graph_file(line.files[0]);
    const Input rule = read_rule_file(line.files[1]);
    const std::string report = line.all ? rewrite_all(graph, rule, line.start, line.max)
                                        : rewrite_once(graph, rule, line.start);
    finish(line, graph, {report});
}

// Without a rewriting before.
void tidy(const CommandLine &line) {
    Input graph = read_graph_file(line.files[0]);
    finish(line, graph, {});
}

void import_block(const CommandLine &line) {
    Input graph = read_graph_file(line.files[0]);
    want_imported(import_graph(graph.bytes), graph);
    const std::size_t slots = read_graph(graph.bytes).slots.size();
    finish(line, graph, {"imported: it is a version 2 block now, with counts for "
                         + counted(slots, "slot", "slots")});
}

void read_text(const CommandLine &line) {
    Input graph = graph_of(read_text_file(line.files[0]));
    finish(line, graph, {"read: " + graph_words(graph)});
}

void show(const CommandLine &line) {
    const Input input = read_any_file(line.files[0]);
    if (starts_with(input, graph_mark)) {
        want_sound_graph(input);
        print_graph(line, input);
    } else if (line.counts && starts_with(input, rule_mark)) {
        throw bad_usage("--counts is for a graph, and " + input.name + " is a rule", "show");
    } else if (starts_with(input, rule_mark)) {
        want_sound_rule(input);
        print(rule_text(read_rule(input.bytes), operators(line)));
    } else {
        throw Failure(Status::refused,
                      {input.name + ": neither a graph block (LGT) nor a rule block (LGR)"
                       + listing_hint(input)});
    }
}

// The drawing of the graph, with the match of the rule if there is a rule.
std::string drawing(const CommandLine &line) {
    const Input graph = read_graph_file(line.files[0]);
    if (line.files.size() == 1) {
        want_sound_graph(graph);
        return dot_text(read_graph(graph.bytes), nullptr);
    }
    const Match match = find(graph, read_rule_file(line.files[1]), line.start);
    return dot_text(read_graph(graph.bytes), &match);
}

void dot(const CommandLine &line) {
    const std::string text = drawing(line);
    const std::string out = line.out.value_or("-");
    if (line.svg) {
        write_output(out, svg_of(text));
    } else {
        write_output(out, text);
    }
}

} // namespace

void run_command(const CommandLine &line) {
    switch (line.command) {
    case Command::check:
        return check(line);
    case Command::check_rule:
        return check_rule(line);
    case Command::match:
        return match(line);
    case Command::read_elsewhere:
        return read_elsewhere(line);
    case Command::rewrite:
        return rewrite(line);
    case Command::sweep:
    case Command::squeeze:
        return tidy(line);
    case Command::import_graph:
        return import_block(line);
    case Command::read_text:
        return read_text(line);
    case Command::show:
        return show(line);
    case Command::dot:
        return dot(line);
    }
}

} // namespace leafgraph::tool
