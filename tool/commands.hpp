// The commands. Each prints its result, or throws a Failure. Standard output gets
// the result alone, so that it can be piped on.
#ifndef LEAFGRAPH_TOOL_COMMANDS_HPP
#define LEAFGRAPH_TOOL_COMMANDS_HPP

#include "command_line.hpp"

namespace leafgraph::tool {

void run_command(const CommandLine &line);

} // namespace leafgraph::tool

#endif // LEAFGRAPH_TOOL_COMMANDS_HPP
