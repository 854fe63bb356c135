// Sweeping and squeezing a graph.
#ifndef LEAFGRAPH_TOOL_TIDYING_HPP
#define LEAFGRAPH_TOOL_TIDYING_HPP

#include <cstdint>
#include <string>
#include <vector>

#include "input.hpp"

namespace leafgraph::tool {

// Both change the graph's bytes and return a line that says what was done. A refusal is
// thrown.

std::string sweep_graph(Input &graph);

// Makes the list of moves, too.
std::string squeeze_graph(Input &graph, std::vector<std::uint8_t> &list);

} // namespace leafgraph::tool

#endif // LEAFGRAPH_TOOL_TIDYING_HPP
