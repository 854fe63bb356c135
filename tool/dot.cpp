#include "dot.hpp"

#include <algorithm>
#include <vector>

#include "names.hpp"
#include "readers.hpp"
#include "text.hpp"

namespace leafgraph::tool {
namespace {

// Graphviz' names of colours that leave black letters easy to read.
const std::string rule_input_colour = "lightblue";
const std::string kept_colour = "palegreen";
const std::string removed_colour = "lightsalmon";

// The colour of what a source vertex of this pattern matches. A Const stays where it is read
// elsewhere.
const std::string &colour_of(const Pattern &pattern, unsigned slot, const Graph &graph,
                             const Match &match) {
    if (pattern.is_rule_input()) {
        return rule_input_colour;
    }
    const bool stays = pattern.kind == Kind::constant
                       && readers_of(graph, match, slot).elsewhere();
    return stays ? kept_colour : removed_colour;
}

// The fill colour of each slot's node; empty for those that are not matched.
std::vector<std::string> colours(const Graph &graph, const Match *match) {
    std::vector<std::string> result(graph.slots.size());
    if (match == nullptr) {
        return result;
    }
    const std::vector<Pattern> &source = match->rule.source;
    for (std::size_t vertex = 0; vertex < source.size(); ++vertex) {
        const unsigned slot = match->slots[vertex];
        result.at(slot) = colour_of(source[vertex], slot, graph, *match);
    }
    return result;
}

std::string node_line(std::size_t number, const Slot &slot, const std::string &colour) {
    std::string label = std::to_string(number) + " "
                        + (slot.kind == Kind::call ? operator_name(slot.op)
                                                   : kind_word(slot.kind));
    if (!slot.attributes.empty()) {
        // Graphviz reads these two letters as the end of a line.
        label += "\\n" + spaced(slot.attributes);
    }
    const std::string fill = colour.empty() ? "" : ", style=filled, fillcolor=" + colour;
    return "    v" + std::to_string(number) + " [label=\"" + label + "\"" + fill + "];\n";
}

// The edges to a vertex. Where there are more than one, each tells its place.
std::string edge_lines(std::size_t reader, const std::vector<unsigned> &inputs) {
    std::string text;
    for (std::size_t place = 0; place < inputs.size(); ++place) {
        const std::string label
            = inputs.size() == 1 ? "" : " [label=\"" + std::to_string(place) + "\"]";
        text += "    v" + std::to_string(inputs[place]) + " -> v" + std::to_string(reader)
                + label + ";\n";
    }
    return text;
}

std::string output_lines(const std::vector<unsigned> &outputs) {
    std::string text;
    for (std::size_t place = 0; place < outputs.size(); ++place) {
        const std::string number = std::to_string(place);
        text += "    out" + number + " [label=\"out " + number + "\", shape=plaintext];\n"
                + "    v" + std::to_string(outputs[place]) + " -> out" + number + ";\n";
    }
    return text;
}

// The line about a Const that stays stands only where there is one.
std::string legend(const Match *match, const std::vector<std::string> &colour) {
    if (match == nullptr) {
        return "";
    }
    const bool one_stays = std::find(colour.begin(), colour.end(), kept_colour) != colour.end();
    const std::string kept = one_stays
                                 ? kept_colour + ": a const that stays, needed elsewhere\\n"
                                 : "";
    return "    label=\"match from start " + std::to_string(match->start) + "\\n"
           + rule_input_colour + ": rule inputs\\n" + kept + removed_colour
           + ": what a rewriting removes\";\n";
}

} // namespace

std::string dot_text(const Graph &graph, const Match *match) {
    const std::vector<std::string> colour = colours(graph, match);
    std::string text = "digraph leafgraph {\n" + legend(match, colour) + "    node [shape=box];\n";
    std::string edges;
    for (std::size_t number = 0; number < graph.slots.size(); ++number) {
        const Slot &slot = graph.slots[number];
        if (slot.kind != Kind::empty) {
            text += node_line(number, slot, colour[number]);
            edges += edge_lines(number, slot.inputs);
        }
    }
    return text + edges + output_lines(graph.outputs) + "}\n";
}

} // namespace leafgraph::tool
