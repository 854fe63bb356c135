// Small helpers for text that is printed.
#ifndef LEAFGRAPH_TOOL_TEXT_HPP
#define LEAFGRAPH_TOOL_TEXT_HPP

#include <cstddef>
#include <string>
#include <vector>

namespace leafgraph::tool {

// "1 vertex", "2 vertices".
std::string counted(std::size_t count, const std::string &one, const std::string &many);

// "slot 9", "slots 9 and 12", "slots 9, 12 and 40".
std::string numbered(const std::vector<unsigned> &numbers, const std::string &one,
                     const std::string &many);

// "once", "3 times".
std::string times(std::size_t count);

// A file's path as messages name it, also where it is empty.
std::string file_name(const std::string &path);

// The text with '?' for control bytes, so that a strange file name can't break
// a line in two or send commands to a terminal.
std::string printable(const std::string &text);

// The numbers of a list with single spaces between, each after the prefix.
template <class Numbers>
std::string spaced(const Numbers &numbers, const std::string &prefix = "") {
    std::string text;
    for (const auto number : numbers) {
        text += (text.empty() ? "" : " ") + prefix + std::to_string(number);
    }
    return text;
}

} // namespace leafgraph::tool

#endif // LEAFGRAPH_TOOL_TEXT_HPP
