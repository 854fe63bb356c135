// What help prints.
#ifndef LEAFGRAPH_TOOL_HELP_HPP
#define LEAFGRAPH_TOOL_HELP_HPP

#include <string>

#include "command_line.hpp"

namespace leafgraph::tool {

std::string general_help();
std::string command_help(Command command);

} // namespace leafgraph::tool

#endif // LEAFGRAPH_TOOL_HELP_HPP
