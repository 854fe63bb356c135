#include "readers.hpp"

#include <algorithm>

#include "text.hpp"

namespace leafgraph::tool {
namespace {

// The list to which this reader belongs.
std::vector<unsigned> &list_for(unsigned reader, const Match &match, Readers &readers) {
    for (std::size_t vertex = 0; vertex < match.rule.source.size(); ++vertex) {
        if (match.slots[vertex] == reader) {
            return match.rule.source[vertex].is_rule_input() ? readers.rule_inputs
                                                             : readers.inside;
        }
    }
    return readers.others;
}

// "which slots 9 and 12 read".
std::string which_read(const std::vector<unsigned> &slots) {
    return "which " + numbered(slots, "slot", "slots") + (slots.size() == 1 ? " reads" : " read");
}

std::string why_yes(const Readers &readers) {
    std::string text;
    const auto add = [&](const std::string &reason) {
        text += (text.empty() ? ", " : ", and ") + reason;
    };
    if (!readers.outputs.empty()) {
        add("which is " + numbered(readers.outputs, "output", "outputs"));
    }
    if (!readers.others.empty()) {
        add(which_read(readers.others) + ", outside the match");
    }
    if (!readers.rule_inputs.empty()) {
        const bool one = readers.rule_inputs.size() == 1;
        add(which_read(readers.rule_inputs)
            + (one ? ", a rule input, which stays" : ", rule inputs, which stay"));
    }
    return text;
}

std::string why_no(const Readers &readers) {
    return readers.inside.empty() ? ", which nothing reads and which is no output"
                                  : ", which only the match reads, in "
                                        + numbered(readers.inside, "slot", "slots");
}

} // namespace

Readers readers_of(const Graph &graph, const Match &match, unsigned slot) {
    Readers readers;
    for (unsigned reader = 0; reader < graph.slots.size(); ++reader) {
        const std::vector<unsigned> &inputs = graph.slots[reader].inputs;
        if (std::find(inputs.begin(), inputs.end(), slot) != inputs.end()) {
            list_for(reader, match, readers).push_back(reader);
        }
    }
    for (unsigned place = 0; place < graph.outputs.size(); ++place) {
        if (graph.outputs[place] == slot) {
            readers.outputs.push_back(place);
        }
    }
    return readers;
}

std::string answer_line(bool yes, std::size_t vertex, unsigned slot, const Readers &readers) {
    return std::string(yes ? "yes" : "no") + ": source vertex " + std::to_string(vertex)
           + " matches slot " + std::to_string(slot) + (yes ? why_yes(readers) : why_no(readers))
           + "\n";
}

} // namespace leafgraph::tool
