// The block of a listing whose graph is not sound: the library makes none, but what is wrong with
// the graph is told of its block.
#ifndef LEAFGRAPH_TOOL_LISTED_BLOCK_HPP
#define LEAFGRAPH_TOOL_LISTED_BLOCK_HPP

#include <cstdint>
#include <string>
#include <vector>

namespace leafgraph::tool {

// Wants a text that the library has found to be of a listing's form: it tests nothing. The
// block has the true count of each slot. Where the graph is sound, it is what the library
// makes of the text; a test holds the two against each other.
std::vector<std::uint8_t> listed_block(const std::string &listing);

} // namespace leafgraph::tool

#endif // LEAFGRAPH_TOOL_LISTED_BLOCK_HPP
