// Rewriting a graph once, or until no match is left.
#ifndef LEAFGRAPH_TOOL_REWRITING_HPP
#define LEAFGRAPH_TOOL_REWRITING_HPP

#include <cstddef>
#include <string>

#include "input.hpp"

namespace leafgraph::tool {

// Both rewrite the graph's bytes and return a line that says what was done.
// After a refusal, which is thrown, the bytes are not to be used.

std::string rewrite_once(Input &graph, const Input &rule, std::size_t start);

// Each search begins at start. It is a refusal if there is still a match after
// so many times as max says.
std::string rewrite_all(Input &graph, const Input &rule, std::size_t start, std::size_t max);

} // namespace leafgraph::tool

#endif // LEAFGRAPH_TOOL_REWRITING_HPP
