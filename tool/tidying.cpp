#include "tidying.hpp"

#include <cstddef>

#include "blocks.hpp"
#include "leafgraph.hpp"
#include "refusal.hpp"
#include "text.hpp"

namespace leafgraph::tool {

std::string sweep_graph(Input &graph) {
    const std::vector<std::uint8_t> old = graph.bytes;
    want_done(sweep(graph.bytes), graph);
    const std::size_t gone = count_vertices(read_graph(old))
                             - count_vertices(read_graph(graph.bytes));
    return "swept: " + counted(gone, "slot", "slots") + " became Empty";
}

std::string squeeze_graph(Input &graph, std::vector<std::uint8_t> &list) {
    list.resize(moves_length(graph.bytes));
    const auto [reply, moves] = squeeze(graph.bytes, list);
    want_done(reply, graph);
    const Graph squeezed = read_graph(graph.bytes);
    std::size_t moved = 0, variables = 0;
    for (std::size_t slot = 0; slot < moves.size(); ++slot) {
        if (!moves.was_empty(slot) && moves[slot] != slot) {
            moved++;
            variables += squeezed.slots.at(moves[slot]).kind == Kind::variable ? 1 : 0;
        }
    }
    const std::string report = "squeezed: " + counted(moved, "slot", "slots") + " moved";
    // Whoever feeds a Variable that moved has to know.
    return moved == 0 ? report
                      : report + ", " + counted(variables, "Variable", "Variables")
                            + " among them";
}

} // namespace leafgraph::tool
