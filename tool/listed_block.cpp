#include "listed_block.hpp"

#include <algorithm>
#include <cstddef>
#include <sstream>

#include "blocks.hpp"
#include "input.hpp"
#include "names.hpp"

namespace leafgraph::tool {
namespace {

using Words = std::vector<std::string>;

// A line's words. Brackets are words by themselves.
Words words_of(const std::string &line) {
    std::string spaced;
    for (const char letter : line) {
        const bool is_bracket = std::string("[]{}").find(letter) != std::string::npos;
        spaced += is_bracket ? std::string(" ") + letter + " " : std::string(1, letter);
    }
    std::istringstream stream(spaced);
    Words words;
    for (std::string word; stream >> word;) {
        words.push_back(word);
    }
    return words;
}

// The numbers between two words, or from one to the line's end.
std::vector<long> numbers_between(const Words &words, const std::string &first,
                                  const std::string &end) {
    std::vector<long> numbers;
    auto word = std::find(words.begin(), words.end(), first);
    for (++word; word != words.end() && *word != end; ++word) {
        numbers.push_back(std::stol(*word));
    }
    return numbers;
}

Kind kind_of(const std::string &word) {
    unsigned kind = static_cast<unsigned>(Kind::constant);
    while (kind_word(static_cast<Kind>(kind)) != word) {
        ++kind;
    }
    return static_cast<Kind>(kind);
}

Slot slot_of(const Words &words) {
    Slot slot = {kind_of(words.at(1)), 0, {}, {}, 0};
    if (slot.kind == Kind::call) {
        slot.op = static_cast<unsigned>(std::stoul(words.at(2)));
    }
    for (const long number : numbers_between(words, "[", "]")) {
        slot.inputs.push_back(static_cast<unsigned>(number));
    }
    for (const long number : numbers_between(words, "{", "}")) {
        slot.attributes.push_back(static_cast<std::int32_t>(number));
    }
    return slot;
}

Graph listed_graph(const std::string &listing) {
    Graph graph;
    std::istringstream stream(listing);
    for (std::string line; std::getline(stream, line);) {
        const Words words = words_of(line);
        if (words.at(0) == "graph") {
            graph.slots.resize(std::stoul(words.at(1)), {Kind::empty, 0, {}, {}, 0});
        } else if (words.at(0) == "out") {
            for (const long number : numbers_between(words, "out", "")) {
                graph.outputs.push_back(static_cast<unsigned>(number));
            }
        } else {
            graph.slots.at(std::stoul(words.at(0))) = slot_of(words);
        }
    }
    return graph;
}

// Adds a place to the count of each slot that these name, if it is there.
void count_named(const std::vector<unsigned> &named, std::vector<Slot> &slots) {
    for (const unsigned slot : named) {
        if (slot < slots.size()) {
            ++slots[slot].count;
        }
    }
}

void put(std::vector<std::uint8_t> &block, std::uint32_t number, int bytes) {
    for (int place = 0; place < bytes; ++place) {
        block.push_back(static_cast<std::uint8_t>(number >> (8 * place)));
    }
}

// The numbers, and the filler in the places that are left.
template <class Number>
void put_all(std::vector<std::uint8_t> &block, const std::vector<Number> &numbers,
             std::size_t places, int bytes, std::uint32_t filler) {
    for (std::size_t place = 0; place < places; ++place) {
        const bool used = place < numbers.size();
        put(block, used ? static_cast<std::uint32_t>(numbers[place]) : filler, bytes);
    }
}

void put_slot(std::vector<std::uint8_t> &block, const Slot &slot) {
    put(block, static_cast<std::uint32_t>(slot.kind), 1);
    put(block, slot.op, 1);
    put(block, static_cast<std::uint32_t>(slot.inputs.size()), 1);
    put(block, static_cast<std::uint32_t>(slot.attributes.size()), 1);
    put_all(block, slot.inputs, 6, 2, 65535);
    put_all(block, slot.attributes, 6, 4, 0);
    put(block, slot.count, 2);
    put_all(block, std::vector<unsigned>(), 3, 2, 0);
}

} // namespace

std::vector<std::uint8_t> listed_block(const std::string &listing) {
    Graph graph = listed_graph(listing);
    count_named(graph.outputs, graph.slots);
    for (std::size_t slot = 0; slot < graph.slots.size(); ++slot) {
        count_named(graph.slots[slot].inputs, graph.slots);
    }
    std::vector<std::uint8_t> block(graph_mark.begin(), graph_mark.end());
    put(block, 0, 1);
    put(block, LG_GRAPH_VERSION, 2);
    put(block, static_cast<std::uint32_t>(graph.slots.size()), 2);
    put(block, static_cast<std::uint32_t>(graph.outputs.size()), 2);
    put_all(block, graph.outputs, 4, 2, 65535);
    put_all(block, std::vector<unsigned>(), 3, 2, 0);
    for (const Slot &slot : graph.slots) {
        put_slot(block, slot);
    }
    return block;
}

} // namespace leafgraph::tool
