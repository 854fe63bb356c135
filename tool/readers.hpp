// What reads a slot that a rule matches.
#ifndef LEAFGRAPH_TOOL_READERS_HPP
#define LEAFGRAPH_TOOL_READERS_HPP

#include <cstddef>
#include <string>
#include <vector>

#include "blocks.hpp"
#include "match.hpp"

namespace leafgraph::tool {

// What names a slot, by a look at the block. Each list ascends, with no number twice.
struct Readers {
    std::vector<unsigned> outputs;     // of the graph, by their places
    std::vector<unsigned> inside;      // slots of the match that are no rule inputs
    std::vector<unsigned> rule_inputs; // slots that rule inputs match: they stay
    std::vector<unsigned> others;      // slots that nothing matches

    // Whether there is more than the match reads by itself. The library answers that, too:
    // what a user is told is its answer, and a test holds the two against each other.
    bool elsewhere() const {
        return !outputs.empty() || !rule_inputs.empty() || !others.empty();
    }
};

Readers readers_of(const Graph &graph, const Match &match, unsigned slot);

// The library's answer about a source vertex in a line, with what was found to read it:
// "yes: source vertex 1 matches slot 7, which slots 9 and 12 read, outside the match".
std::string answer_line(bool yes, std::size_t vertex, unsigned slot, const Readers &readers);

} // namespace leafgraph::tool

#endif // LEAFGRAPH_TOOL_READERS_HPP
