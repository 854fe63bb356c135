// A rule, and where it matches a graph.
#ifndef LEAFGRAPH_TOOL_MATCH_HPP
#define LEAFGRAPH_TOOL_MATCH_HPP

#include <cstddef>

#include "blocks.hpp"
#include "leafgraph.hpp"

namespace leafgraph::tool {

struct Match {
    Rule rule;
    std::size_t start; // the number that the search was given
    Map slots;
};

} // namespace leafgraph::tool

#endif // LEAFGRAPH_TOOL_MATCH_HPP
