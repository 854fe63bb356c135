// Blocks as files, and questions about the graph that a block holds.
#ifndef LEAFGRAPH_DEMO_GRAPH_HPP
#define LEAFGRAPH_DEMO_GRAPH_HPP

#include "tool/blocks.hpp"

#include <cstddef>
#include <cstdint>
#include <string>
#include <vector>

namespace demo {

using leafgraph::tool::Graph;
using leafgraph::tool::Kind;
using leafgraph::tool::Slot;
using Block = std::vector<std::uint8_t>;

// The operators that the leaf pipeline uses, by document 01's numbers.
enum class Operator : unsigned {
    mul = 2,
    conv2d = 4,
    bias_add = 5,
    batch_norm = 6,
    relu = 7,
    gain = 10,
    vivid = 11,
    mean = 12,
    cast = 14
};

// The bytes of a file. Throws std::runtime_error where it can't be read.
Block read_file(const std::string &path);

// What a check says about this block: `reply 23, bad graph block: it has a cycle, slot 9`.
std::string in_words(leafgraph::Reply reply, const Block &block);

// Writes into a sound block that input place `place` of this slot names `named`. The counts
// are left as they were.
void put_input(Block &block, std::size_t slot, std::size_t place, std::size_t named);

// Writes into a sound block that so many places name this slot.
void put_count(Block &block, std::size_t slot, std::size_t count);

bool is_call(const Slot &slot, Operator op);

// The slots of all vertices with this operator, ascending.
std::vector<std::size_t> calls(const Graph &graph, Operator op);

// For each slot, whether there is a path from it to this one; from itself, too.
std::vector<bool> leading_to(const Graph &graph, std::size_t slot);

// The slots of all vertices that read this one, ascending.
std::vector<std::size_t> readers(const Graph &graph, std::size_t slot);

// Whether each slot's count is the number of input places and outputs that name it. The
// library has checked that, too; this counts anew.
bool has_true_counts(const Graph &graph);

// A vertex in words, such as `gain(10) {3 2 4}`.
std::string in_words(const Slot &slot);

} // namespace demo

#endif // LEAFGRAPH_DEMO_GRAPH_HPP
