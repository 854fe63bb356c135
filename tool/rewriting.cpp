#include "rewriting.hpp"

#include <vector>

#include "blocks.hpp"
#include "failure.hpp"
#include "leafgraph.hpp"
#include "refusal.hpp"
#include "text.hpp"

namespace leafgraph::tool {
namespace {

Failure still_a_match(std::size_t count) {
    return Failure(Status::refused, {"there is still a match after "
                                     + counted(count, "rewriting", "rewritings")
                                     + ", the bound of --max; nothing is written"});
}

Failure refused_after(std::size_t count, const std::string &refusal) {
    return Failure(Status::refused,
                   {refusal, counted(count, "rewriting was", "rewritings were")
                                 + " done before; nothing is written"});
}

} // namespace

std::string rewrite_once(Input &graph, const Input &rule, std::size_t start) {
    Map map;
    want_done(rewrite(graph.bytes, rule.bytes, start, map), graph, rule);
    std::vector<unsigned> slots;
    for (std::size_t vertex = 0; map[vertex] != Map::no_slot; ++vertex) {
        slots.push_back(map[vertex]);
    }
    // A sound rule has two source vertices at least: an output, and its input.
    return "rewritten once: source vertices 0.." + std::to_string(slots.size() - 1)
           + " were slots " + spaced(slots);
}

std::string rewrite_all(Input &graph, const Input &rule, std::size_t start, std::size_t max) {
    Map map;
    for (std::size_t count = 0;; ++count) {
        const bool more_allowed = count < max;
        // At the bound it is only asked whether there is one more.
        const Reply reply = more_allowed ? rewrite(graph.bytes, rule.bytes, start, map)
                                         : find_match(graph.bytes, rule.bytes, start, map);
        if (reply.code() == Code::no_match) {
            return "rewritten " + times(count) + "; no match is left"
                   + (start == 0 ? "" : " from start " + std::to_string(start) + " on");
        }
        if (!reply.done()) {
            throw refused_after(count, refusal_line(reply, graph, rule));
        }
        if (!more_allowed) {
            throw still_a_match(count);
        }
    }
}

} // namespace leafgraph::tool
