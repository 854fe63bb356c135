#include "refusal.hpp"

#include <vector>

#include "blocks.hpp"
#include "failure.hpp"
#include "graph_fault.hpp"
#include "listed_block.hpp"
#include "names.hpp"
#include "rule_fault.hpp"
#include "text_fault.hpp"

namespace leafgraph::tool {

namespace {

// What a look at a refused file tells beyond the reply: mostly two files were
// exchanged, or one was never written. The mark is that of what was wanted.
std::string hint(const Input &input, const std::string &wanted) {
    if (input.bytes.empty()) {
        return " (it is empty)";
    }
    if (wanted != graph_mark && starts_with(input, graph_mark)) {
        return " (it begins as a graph block does)";
    }
    if (wanted != rule_mark && starts_with(input, rule_mark)) {
        return " (it begins as a rule block does)";
    }
    return wanted != listing_mark ? listing_hint(input) : "";
}

// Where the version is what is told: of version 1 where version 2 is wanted, or the other
// way round. The block may have further faults, which the call for its version tells.
std::string version_hint(const Fault &fault) {
    if (fault == version_fault(LG_VERSION_TO_IMPORT, LG_GRAPH_VERSION)) {
        return " (a version 1 block wants importing: leafgraph import GRAPH)";
    }
    return fault == version_fault(LG_GRAPH_VERSION, LG_VERSION_TO_IMPORT)
               ? " (a version 2 block needs no import)"
               : "";
}

// "slot 12: input 2 names slot 40, which is Empty". A refusal whose reason is not found,
// as that of a later library might be, is told with the reply alone.
std::string fault_words(Reply reply, const Input &input, const Fault &fault) {
    const Place place = place_in(reply, input.bytes);
    if (fault.empty()) {
        return std::string(reply.what()) + ", place " + std::to_string(reply.place());
    }
    return place.kind == PlaceKind::none
               ? fault
               : std::string(what(place.kind)) + " " + std::to_string(place.number) + ": " + fault;
}

std::string refused_with(Reply reply) {
    return "refused with reply " + std::to_string(reply.number()) + ": ";
}

// A refused graph, of which this version was wanted.
std::string graph_refusal(Reply reply, const Input &graph, unsigned version) {
    const Fault fault = graph_fault(reply, graph.bytes, version);
    return graph.name + ": " + refused_with(reply) + fault_words(reply, graph, fault)
           + hint(graph, graph_mark) + version_hint(fault);
}

// What is wrong with the graph of a listing, told of the block that it would have.
std::string unsound_words(Reply reply, const Input &text) {
    const std::string listing(text.bytes.begin(), text.bytes.end());
    const Input graph = {text.name, listed_block(listing)};
    const Reply told = check_graph(graph.bytes);
    return std::string(reply.what()) + ": "
           + fault_words(told, graph, graph_fault(told, graph.bytes, LG_GRAPH_VERSION));
}

// A refused text.
std::string text_refusal(Reply reply, const Input &text) {
    const std::string begins = text.name + ": " + refused_with(reply);
    switch (reply.code()) {
    case Code::not_a_listing:
        return begins + text_fault(text.bytes, reply.place()) + hint(text, listing_mark);
    case Code::unsound_graph:
        return begins + unsound_words(reply, text);
    default:
        return begins + reply.what();
    }
}

// Why this number is no source vertex of a sound rule to ask about.
std::string vertex_refusal(Reply reply, const Input &rule, std::size_t vertex) {
    const std::vector<Pattern> source = read_rule(rule.bytes).source;
    const std::string number = std::to_string(vertex), count = std::to_string(source.size());
    const std::string why
        = vertex < source.size()
              ? "source vertex " + number + " is a rule input (a " + kind_word(source[vertex].kind)
                    + "), which stays whatever reads it"
              : "there is no source vertex " + number + ": the rule has " + count + ", from 0 to "
                    + std::to_string(source.size() - 1);
    return rule.name + ": " + refused_with(reply) + why;
}

} // namespace

std::string listing_hint(const Input &input) {
    return starts_with(input, listing_mark)
               ? " (it begins as a listing does: leafgraph read TEXT)"
               : "";
}

std::string refusal_line(Reply reply, const Input &graph, const Input &rule) {
    if (reply.code() == Code::no_match) {
        return std::string(reply.what()) + " (reply " + std::to_string(reply.number()) + ")";
    }
    if (reply.bad_graph()) {
        return graph_refusal(reply, graph, LG_GRAPH_VERSION);
    }
    if (reply.bad_rule()) {
        return rule.name + ": " + refused_with(reply)
               + fault_words(reply, rule, rule_fault(reply, rule.bytes))
               + hint(rule, rule_mark);
    }
    return refused_with(reply) + reply.what();
}

void want_done(Reply reply, const Input &graph, const Input &rule) {
    if (!reply.done()) {
        const bool none = reply.code() == Code::no_match;
        throw Failure(none ? Status::no_match : Status::refused,
                      {refusal_line(reply, graph, rule)});
    }
}

// Such a call gives no reply about another block: what stands for that one here is
// never named.
void want_done(Reply reply, const Input &block) {
    want_done(reply, block, block);
}

void want_imported(Reply reply, const Input &graph) {
    if (!reply.done()) {
        throw Failure(Status::refused, {graph_refusal(reply, graph, LG_VERSION_TO_IMPORT)});
    }
}

void want_read(Reply reply, const Input &text) {
    if (!reply.done()) {
        throw Failure(Status::refused, {text_refusal(reply, text)});
    }
}

void want_answered(Reply reply, const Input &graph, const Input &rule, std::size_t vertex) {
    if (reply.code() == Code::no_such_vertex) {
        throw Failure(Status::refused, {vertex_refusal(reply, rule, vertex)});
    }
    want_done(reply, graph, rule);
}

void want_sound_graph(const Input &graph) {
    want_done(check_graph(graph.bytes), graph);
}

void want_sound_rule(const Input &rule) {
    want_done(check_rule(rule.bytes), rule);
}

} // namespace leafgraph::tool
