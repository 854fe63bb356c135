// A graph's listing, which the library writes and reads.
#ifndef LEAFGRAPH_TOOL_LISTING_HPP
#define LEAFGRAPH_TOOL_LISTING_HPP

#include <string>

#include "input.hpp"

namespace leafgraph::tool {

// Both throw the refusal.

std::string listing_of(const Input &graph);

// The block of a listing's graph, under the name of the text.
Input graph_of(const Input &text);

} // namespace leafgraph::tool

#endif // LEAFGRAPH_TOOL_LISTING_HPP
