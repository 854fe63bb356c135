// Builders of blocks for the tests in C++. They write what they are told, sound
// or not: numbers of inputs and attributes follow from the lists, and the counts of a
// graph's slots from all of them; unused places are filled in.
#ifndef LEAFGRAPH_HOST_BLOCKS_HPP
#define LEAFGRAPH_HOST_BLOCKS_HPP

#include <cstddef>
#include <cstdint>
#include <initializer_list>
#include <vector>

#include "counts.h"

namespace blocks {

using Block = std::vector<std::uint8_t>;

enum Kind : std::uint8_t { empty, constant, variable, call, tuple, projection, wildcard = empty };
enum Operator : std::uint8_t { none = 0, add = 1, sub = 3, relu = 7, gain = 10, mean = 12 };
enum Form : std::uint8_t { any = 0, access = 2, multiply = 5 };

struct Vertex {
    Kind kind;
    Operator op;
    std::vector<std::uint16_t> inputs;
    std::vector<std::int32_t> attributes;
};

// Inputs are places and attributes are numbers of nodes.
struct Pattern {
    Kind kind;
    Operator op;
    std::vector<std::uint8_t> inputs;
    std::vector<std::uint8_t> attributes;
};

struct Node {
    Form form;
    std::uint8_t a, b;
};

struct Rule {
    std::vector<Pattern> source, target;
    std::vector<std::uint8_t> source_outputs, target_outputs;
    std::vector<Node> nodes;
};

// The place of a target vertex in a target's inputs and outputs.
constexpr std::uint8_t made(int vertex) {
    return static_cast<std::uint8_t>(16 + vertex);
}

// Little-endian, in so many bytes.
inline void put(Block &block, std::uint32_t number, int bytes) {
    for (int place = 0; place < bytes; ++place) {
        block.push_back(static_cast<std::uint8_t>(number >> (8 * place)));
    }
}

// The numbers, and then this filler up to so many places.
template <class Number>
void put_all(Block &block, const std::vector<Number> &numbers, std::size_t places, int bytes,
             std::uint32_t filler) {
    for (std::size_t place = 0; place < places; ++place) {
        const bool used = place < numbers.size();
        put(block, used ? static_cast<std::uint32_t>(numbers[place]) : filler, bytes);
    }
}

template <class Record>
void put_head(Block &block, const Record &record) {
    put(block, record.kind, 1);
    put(block, record.op, 1);
    put(block, static_cast<std::uint32_t>(record.inputs.size()), 1);
    put(block, static_cast<std::uint32_t>(record.attributes.size()), 1);
}

inline Block graph(const std::vector<Vertex> &slots, const std::vector<std::uint16_t> &outputs) {
    Block block = {'L', 'G', 'T', 0};
    put(block, 2, 2);
    put(block, static_cast<std::uint32_t>(slots.size()), 2);
    put(block, static_cast<std::uint32_t>(outputs.size()), 2);
    put_all(block, outputs, 4, 2, 65535);
    block.resize(24);
    for (const Vertex &slot : slots) {
        put_head(block, slot);
        put_all(block, slot.inputs, 6, 2, 65535);
        put_all(block, slot.attributes, 6, 4, 0);
        put(block, 0, 4);
        put(block, 0, 4);
    }
    put_counts(block.data());
    return block;
}

inline Block rule(const Rule &parts) {
    Block block = {'L', 'G', 'R', 0};
    put(block, 1, 2);
    for (const std::size_t count : {parts.source.size(), parts.target.size(),
                                    parts.source_outputs.size(), parts.nodes.size()}) {
        put(block, static_cast<std::uint32_t>(count), 1);
    }
    put_all(block, parts.source_outputs, 2, 1, 255);
    put_all(block, parts.target_outputs, 2, 1, 255);
    put(block, 0, 2);
    for (const auto *side : {&parts.source, &parts.target}) {
        for (const Pattern &pattern : *side) {
            put_head(block, pattern);
            put_all(block, pattern.inputs, 6, 1, 255);
            put_all(block, pattern.attributes, 6, 1, 255);
        }
    }
    for (const Node &node : parts.nodes) {
        block.insert(block.end(), {node.form, node.a, node.b, 0, 0, 0, 0, 0});
    }
    return block;
}

} // namespace blocks

#endif // LEAFGRAPH_HOST_BLOCKS_HPP
