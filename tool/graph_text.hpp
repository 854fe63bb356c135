// A graph as text for people: a line for each vertex. The exact listing is the library's.
#ifndef LEAFGRAPH_TOOL_GRAPH_TEXT_HPP
#define LEAFGRAPH_TOOL_GRAPH_TEXT_HPP

#include <string>

#include "blocks.hpp"
#include "names.hpp"

namespace leafgraph::tool {

// Whether the text tells how many places name each slot. They follow from the rest.
enum class Counts { left_out, shown };

// For instance, with operators as names:
//
//     graph 3
//     0 variable [] {1 3 8 8 1}
//     1 call relu [0] {}
//     out 1
//
// Inputs stand in [], attributes in {}; Empty slots have no line. Where counts are shown,
// each slot's stands behind it as a comment: "1 call relu [0] {} # count 1". With operators
// as numbers and no counts it would be the listing, which listing.hpp has.
std::string graph_text(const Graph &graph, Operators operators, Counts counts);

} // namespace leafgraph::tool

#endif // LEAFGRAPH_TOOL_GRAPH_TEXT_HPP
