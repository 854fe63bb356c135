#include "listing.hpp"

#include "leafgraph.hpp"
#include "refusal.hpp"

namespace leafgraph::tool {

std::string listing_of(const Input &graph) {
    std::string text;
    want_done(assign_listing(graph.bytes, text), graph);
    return text;
}

Input graph_of(const Input &text) {
    Input graph = {text.name, {}};
    graph.bytes.resize(graph_length(text.bytes));
    want_read(read_listing(text.bytes, graph.bytes), text);
    return graph;
}

} // namespace leafgraph::tool
