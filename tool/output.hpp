// Writing what a command has made.
#ifndef LEAFGRAPH_TOOL_OUTPUT_HPP
#define LEAFGRAPH_TOOL_OUTPUT_HPP

#include <string>

#include "leafgraph.hpp"

namespace leafgraph::tool {

// Writes to standard output.
void print(Bytes bytes);

// Writes a line of the tool's own to standard error. That one can't be written
// to is nothing that could be told anywhere.
void say(const std::string &line) noexcept;

// Writes a file, or standard output for "-". A regular file is replaced whole
// or not at all: whatever goes wrong, the old one is as it was.
void write_output(const std::string &path, Bytes bytes);

// Whether that would replace the file from which an input is read, by whatever
// spelling or link the two are named, or by a redirection of standard input.
bool would_replace(const std::string &path, const std::string &input_path);

// Whether two outputs would be written to one place, also by a redirection of standard
// output. Neither file need be there yet.
bool same_output(const std::string &path, const std::string &other);

} // namespace leafgraph::tool

#endif // LEAFGRAPH_TOOL_OUTPUT_HPP
