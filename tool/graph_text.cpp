#include "graph_text.hpp"

#include <cstddef>

#include "text.hpp"

namespace leafgraph::tool {

std::string graph_text(const Graph &graph, Operators operators, Counts counts) {
    std::string text = "graph " + std::to_string(graph.slots.size()) + "\n";
    for (std::size_t number = 0; number < graph.slots.size(); ++number) {
        const Slot &slot = graph.slots[number];
        if (slot.kind == Kind::empty) {
            continue;
        }
        text += std::to_string(number) + " " + vertex_words(slot.kind, slot.op, operators)
                + " [" + spaced(slot.inputs) + "] {" + spaced(slot.attributes) + "}"
                + (counts == Counts::shown ? " # count " + std::to_string(slot.count) : "") + "\n";
    }
    return text + "out " + spaced(graph.outputs) + "\n";
}

} // namespace leafgraph::tool
