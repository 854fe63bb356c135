// leafgraph: the library's operations on files.
//
// Where to find what, in the order of a run:
//
//   command_line  what the user asks for        help       what help prints
//   commands      what each command does        failure    what ends one early
//   input         files that are read           output     files that are written
//   blocks        what a sound block says       refusal    the library's refusals
//   rewriting     once, or until none is left   tidying    sweeping and squeezing
//   match         a rule, and where it matches  readers    what reads a matched slot
//   graph_text    a graph as text for people    rule_text  a rule as text
//   listing       the library's text of a graph, and back
//   dot           a graph as a drawing          graphviz   the program that draws
//   names         of kinds and operators
//
// What is wrong with a refused block, in words: graph_fault; rule_fault, with
// rule_outputs_fault and rule_expression_fault; fault has what those share, fields and
// rule_view read any bytes. With a refused text: text_fault, and listed_block where its
// graph is not sound.
//
// descriptor has the system calls that input, output and graphviz share, text
// what is printed in several places.
#include <exception>
#include <string>
#include <vector>

#include "command_line.hpp"
#include "commands.hpp"
#include "failure.hpp"
#include "help.hpp"
#include "leafgraph.hpp"
#include "output.hpp"

namespace leafgraph::tool {
namespace {

void fulfil(const Request &request) {
    switch (request.wish) {
    case Request::Wish::run:
        return run_command(*request.line);
    case Request::Wish::help:
        return print(request.about ? command_help(*request.about) : general_help());
    case Request::Wish::version:
        return print(std::string("leafgraph ") + LEAFGRAPH_VERSION + "\n");
    }
}

// All that can go wrong ends here, as lines on standard error and a status.
Status run(int argc, char **argv) noexcept {
    try {
        const std::vector<std::string> words(argv + (argc > 0 ? 1 : 0), argv + argc);
        fulfil(read_command_line(words));
        return Status::done;
    } catch (const Failure &failure) {
        for (const std::string &line : failure.lines()) {
            say(line);
        }
        return failure.status();
    } catch (const std::exception &error) {
        // No memory left, for instance.
        say(error.what());
        return Status::trouble;
    }
}

} // namespace
} // namespace leafgraph::tool

int main(int argc, char **argv) {
    return static_cast<int>(leafgraph::tool::run(argc, argv));
}
