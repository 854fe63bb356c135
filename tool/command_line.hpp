// What the user asks for, read from the words of the command line.
#ifndef LEAFGRAPH_TOOL_COMMAND_LINE_HPP
#define LEAFGRAPH_TOOL_COMMAND_LINE_HPP

#include <cstddef>
#include <optional>
#include <string>
#include <vector>

namespace leafgraph::tool {

enum class Command {
    check,
    check_rule,
    match,
    read_elsewhere,
    rewrite,
    sweep,
    squeeze,
    import_graph,
    read_text,
    show,
    dot
};

// A command with its files and options. What a command doesn't take has its default here.
struct CommandLine {
    Command command;
    std::vector<std::string> files; // as many as the command wants
    std::size_t vertex = 0;
    std::size_t start = 0;
    std::size_t max = 4096;
    std::optional<std::string> out;
    std::optional<std::string> moves;
    bool all = false;
    bool sweep = false;   // by an option, or since that is the command
    bool squeeze = false; // likewise
    bool numbers = false;
    bool counts = false;
    bool svg = false;
};

// What can be asked for: to run a command, or only to be told something.
struct Request {
    enum class Wish { run, help, version };

    Wish wish;
    std::optional<CommandLine> line; // to run
    std::optional<Command> about;    // help about one command; else about all
};

// Throws bad usage. The words are those after the program's name.
Request read_command_line(const std::vector<std::string> &words);

} // namespace leafgraph::tool

#endif // LEAFGRAPH_TOOL_COMMAND_LINE_HPP
