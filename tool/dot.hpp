// A graph as a drawing: text in the language of Graphviz.
#ifndef LEAFGRAPH_TOOL_DOT_HPP
#define LEAFGRAPH_TOOL_DOT_HPP

#include <string>

#include "blocks.hpp"
#include "match.hpp"

namespace leafgraph::tool {

// The match, of the graph that is drawn, may be null. Else what it matches is coloured.
std::string dot_text(const Graph &graph, const Match *match);

} // namespace leafgraph::tool

#endif // LEAFGRAPH_TOOL_DOT_HPP
