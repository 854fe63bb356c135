// Graphviz' program dot, which draws.
#ifndef LEAFGRAPH_TOOL_GRAPHVIZ_HPP
#define LEAFGRAPH_TOOL_GRAPHVIZ_HPP

#include <cstdint>
#include <string>
#include <vector>

namespace leafgraph::tool {

// The drawing as SVG, made by the first dot that stands on the PATH.
std::vector<std::uint8_t> svg_of(const std::string &dot_text);

} // namespace leafgraph::tool

#endif // LEAFGRAPH_TOOL_GRAPHVIZ_HPP
