// A plugin in small, which calls all functions of the wrapper: its object shows what
// the header brings into one. make/host.mk looks at it (plugin-symbols).

#include "leafgraph.hpp"

#include <array>
#include <string>
#include <vector>

// Whether the graph is rewritten, and why or why not.
bool rewritten(std::vector<unsigned char> &graph, const std::array<unsigned char, 80> &rule,
               const char *&why) {
    leafgraph::Map map;
    leafgraph::Reply reply = leafgraph::find_match(graph, rule, 0, map);
    if (reply && map[0] != leafgraph::Map::no_slot) {
        reply = leafgraph::rewrite(graph, rule, 0, map);
    }
    why = reply.what();
    return reply.done();
}

// Whether only the least match reads what this source vertex matches, so that it may go. Where
// there is no match, or no such vertex, it may not.
bool may_go(const std::vector<unsigned char> &graph, const std::array<unsigned char, 80> &rule,
            std::size_t vertex) {
    leafgraph::Map map;
    return leafgraph::find_match(graph, rule, 0, map).done()
           && leafgraph::is_read_elsewhere(graph, rule, map, vertex).no();
}

// The new number of a Variable after what no output needs has gone; itself if it is refused.
std::size_t tidied(std::vector<unsigned char> &graph, std::vector<unsigned char> &list,
                   std::size_t variable) {
    list.resize(leafgraph::moves_length(graph));
    if (!leafgraph::sweep(graph)) {
        return variable;
    }
    const leafgraph::Squeezed squeezed = leafgraph::squeeze(graph, list);
    return squeezed && !squeezed.moves.was_empty(variable) ? squeezed.moves[variable] : variable;
}

// How many places name this slot of a graph that may be of version 1; 0 if it is refused.
unsigned named(std::vector<unsigned char> &graph, std::size_t slot) {
    if (leafgraph::wants_import(graph) && !leafgraph::import_graph(graph)) {
        return 0;
    }
    return leafgraph::check_graph(graph) ? leafgraph::stored_count(graph, slot) : 0U;
}

// How long a graph is as text, in bytes that are lent for it; 0 if it is refused.
std::size_t listed_length(const std::vector<unsigned char> &graph, std::vector<char> &room) {
    room.resize(leafgraph::listing_room());
    return leafgraph::write_listing(graph, room).length();
}

// A graph as text, and the graph of a text: empty if it is refused.
std::string mailed(const std::vector<unsigned char> &graph) {
    std::string text;
    return leafgraph::assign_listing(graph, text) ? text : "";
}

std::vector<unsigned char> received(const std::string &text) {
    std::vector<unsigned char> graph(leafgraph::graph_length(text));
    return leafgraph::read_listing(text, graph) ? graph : std::vector<unsigned char>();
}

// Whether both are sound, where neither may be there.
bool sound(const void *graph, std::size_t graph_size, const void *rule, std::size_t rule_size) {
    return leafgraph::check_graph({graph, graph_size}).done()
           && leafgraph::check_rule({rule, rule_size}).done();
}

// What a refused graph's place counts, in words.
const char *counted(const std::vector<unsigned char> &graph) {
    return leafgraph::what(leafgraph::place_in(leafgraph::check_graph(graph), graph).kind);
}
