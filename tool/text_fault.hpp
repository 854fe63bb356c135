// What is wrong with a text that is no listing, in words.
#ifndef LEAFGRAPH_TOOL_TEXT_FAULT_HPP
#define LEAFGRAPH_TOOL_TEXT_FAULT_HPP

#include <cstddef>
#include <string>
#include <vector>

#include "fault.hpp"
#include "leafgraph.hpp"

namespace leafgraph::tool {

// Where a byte of a text stands. Both count from 1, the column in bytes.
struct LineAndColumn {
    std::size_t line;
    std::size_t column;
};

LineAndColumn place_of(Bytes text, std::size_t at);

// The bytes that can stand behind the beginning of a listing, ascending. The library is asked
// about each of the 256: it is those that it does not refuse in their place. There is none
// behind a whole listing.
std::vector<unsigned char> next_bytes(const std::string &begun);

// What stands in the place that the library gave for this text, and what could stand there:
// "line 3, column 12 (byte 45): a space stands here, ']' wanted".
Fault text_fault(Bytes text, std::size_t place);

} // namespace leafgraph::tool

#endif // LEAFGRAPH_TOOL_TEXT_FAULT_HPP
