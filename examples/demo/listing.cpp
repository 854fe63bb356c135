#include "listing.hpp"

#include <algorithm>
#include <cstdio>

namespace demo {

namespace {

std::string line_of(const Graph &graph, std::size_t slot, const Names &variable_names) {
    std::string line = in_words(graph.slots[slot]);
    if (graph.slots[slot].kind == Kind::variable) {
        line += ", the " + variable_names.at(slot);
    }
    line.resize(std::max<std::size_t>(line.size(), 40), ' ');
    const bool for_screen = leading_to(graph, graph.outputs[screen])[slot];
    const bool for_number = leading_to(graph, graph.outputs[number])[slot];
    if (for_screen && for_number) {
        return line + "screen and number";
    }
    return line + (for_screen ? "screen" : for_number ? "number" : "nobody");
}

} // namespace

std::vector<std::size_t> stages(const Graph &graph, bool for_each_photograph) {
    std::vector<std::size_t> found;
    for (std::size_t slot = 0; slot < graph.slots.size(); slot++) {
        const Kind kind = graph.slots[slot].kind;
        if (kind != Kind::empty && kind != Kind::variable
            && leading_to(graph, slot)[photograph_slot] == for_each_photograph) {
            found.push_back(slot);
        }
    }
    return found;
}

std::string listed(const std::vector<std::size_t> &slots) {
    std::string text;
    for (const std::size_t slot : slots) {
        text += " " + std::to_string(slot);
    }
    return text;
}

void show_graph(const char *when, const Graph &graph, const Names &variable_names) {
    std::printf("The pipeline %s: %zu vertices in %zu slots, %zu stages to run for each "
                "photograph.\n\n",
                when, leafgraph::tool::count_vertices(graph), graph.slots.size(),
                stages(graph, true).size());
    std::printf("  slot  count  vertex                                  needed for\n");
    for (std::size_t slot = 0; slot < graph.slots.size(); slot++) {
        if (graph.slots[slot].kind != Kind::empty) {
            std::printf("  %4zu  %5u  %s\n", slot, graph.slots[slot].count,
                        line_of(graph, slot, variable_names).c_str());
        }
    }
    std::printf("  The screen shows slot %u, the number is slot %u.\n", graph.outputs[screen],
                graph.outputs[number]);
    const std::vector<std::size_t> once = stages(graph, false);
    if (once.size() == 1) {
        std::printf("  Slot%s depends on no photograph: it is worked out once.\n",
                    listed(once).c_str());
    } else if (!once.empty()) {
        std::printf("  Slots%s depend on no photograph: they are worked out once.\n",
                    listed(once).c_str());
    }
    std::printf("\n");
}

} // namespace demo
