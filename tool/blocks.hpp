// What a sound block says, as plain values. The formats are document 01's.
#ifndef LEAFGRAPH_TOOL_BLOCKS_HPP
#define LEAFGRAPH_TOOL_BLOCKS_HPP

#include <cstddef>
#include <cstdint>
#include <vector>

#include "leafgraph.hpp"

namespace leafgraph::tool {

constexpr std::size_t largest_graph_block = 24 + 48 * 512;
constexpr std::size_t largest_rule_block = 16 + 16 * (16 + 16) + 8 * 64;

// The kind of a vertex. Number 0 is an Empty slot in a graph, and the wildcard
// in a rule.
enum class Kind : std::uint8_t {
    empty = 0,
    wildcard = 0,
    constant = 1,
    variable = 2,
    call = 3,
    tuple = 4,
    projection = 5
};

struct Slot {
    Kind kind;
    unsigned op; // the operator's number; 0 unless the kind is call
    std::vector<unsigned> inputs;
    std::vector<std::int32_t> attributes;
    unsigned count; // of the input places and outputs that name it, as it is stored
};

struct Graph {
    std::vector<Slot> slots;
    std::vector<unsigned> outputs;
};

// How many slots are not Empty.
std::size_t count_vertices(const Graph &graph);

// Whether source vertices of this kind are rule inputs.
constexpr bool makes_rule_input(Kind kind) {
    return kind == Kind::wildcard || kind == Kind::variable;
}

// A vertex of a rule. A source vertex's inputs are source vertices; a target
// vertex's are places (see below). An attribute is the number of its node.
struct Pattern {
    Kind kind;
    unsigned op;
    std::vector<unsigned> inputs;
    std::vector<unsigned> attributes;

    // Whether, as a source vertex, it is a rule input: its image stays.
    bool is_rule_input() const { return makes_rule_input(kind); }
};

// In the target a place below this number is a source vertex (a rule input),
// and one from here on is a target vertex.
constexpr unsigned first_target_place = 16;

// The form of an expression node.
enum class Form : std::uint8_t {
    any = 0,
    constant = 1,
    access = 2,
    add = 3,
    subtract = 4,
    multiply = 5,
    divide = 6,
    remainder = 7
};

struct Node {
    Form form;
    unsigned a;
    unsigned b;
    std::int32_t number;
};

struct Rule {
    std::vector<Pattern> source;
    std::vector<unsigned> source_outputs;
    std::vector<Pattern> target;
    std::vector<unsigned> target_outputs; // places
    std::vector<Node> nodes;
};

// Both want a block that the library has found sound: they test nothing.
Graph read_graph(Bytes sound_block);
Rule read_rule(Bytes sound_block);

} // namespace leafgraph::tool

#endif // LEAFGRAPH_TOOL_BLOCKS_HPP
