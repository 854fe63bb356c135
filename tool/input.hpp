// Reading the files that a command is given.
#ifndef LEAFGRAPH_TOOL_INPUT_HPP
#define LEAFGRAPH_TOOL_INPUT_HPP

#include <cstdint>
#include <string>
#include <vector>

namespace leafgraph::tool {

// A file as it was read.
struct Input {
    std::string name; // for messages
    std::vector<std::uint8_t> bytes;
};

// Reads a file, or standard input for "-". Of a file that is longer than any
// sound block, or than any listing, it reads one byte more than that, which is
// enough for the library to refuse it.
Input read_graph_file(const std::string &path);
Input read_rule_file(const std::string &path);
Input read_any_file(const std::string &path); // a block of either kind
Input read_text_file(const std::string &path);

// The letters with which a block of either kind begins.
inline const std::string graph_mark = "LGT";
inline const std::string rule_mark = "LGR";
// Those with which a listing does.
inline const std::string listing_mark = "graph ";
bool starts_with(const Input &input, const std::string &mark);

} // namespace leafgraph::tool

#endif // LEAFGRAPH_TOOL_INPUT_HPP
