#include "graph.hpp"

#include "tool/names.hpp"

#include <algorithm>
#include <fstream>
#include <iterator>
#include <stdexcept>

namespace demo {

namespace {

std::string name_of(const Slot &slot) {
    return slot.kind == Kind::call ? leafgraph::tool::operator_name(slot.op)
                                   : leafgraph::tool::kind_word(slot.kind);
}

template <class Numbers>
std::string joined(const Numbers &numbers, const char *separator) {
    std::string text;
    for (const auto number : numbers) {
        text += (text.empty() ? "" : separator) + std::to_string(number);
    }
    return text;
}

template <class Condition>
std::vector<std::size_t> slots_with(const Graph &graph, Condition condition) {
    std::vector<std::size_t> found;
    for (std::size_t slot = 0; slot < graph.slots.size(); slot++) {
        if (condition(graph.slots[slot])) {
            found.push_back(slot);
        }
    }
    return found;
}

std::size_t occurrences(const std::vector<unsigned> &slots, std::size_t slot) {
    return static_cast<std::size_t>(std::count(slots.begin(), slots.end(), slot));
}

// How many input places and outputs name this slot.
std::size_t uses(const Graph &graph, std::size_t slot) {
    std::size_t total = occurrences(graph.outputs, slot);
    for (const Slot &reader : graph.slots) {
        total += occurrences(reader.inputs, slot);
    }
    return total;
}

// Writes two bytes of a slot's record. A header has 24 bytes, and a record 48.
void put_number(Block &block, std::size_t slot, std::size_t place, std::size_t number) {
    const std::size_t at = 24 + 48 * slot + place;
    block.at(at) = static_cast<std::uint8_t>(number % 256);
    block.at(at + 1) = static_cast<std::uint8_t>(number / 256);
}

} // namespace

Block read_file(const std::string &path) {
    std::ifstream file(path, std::ios::binary);
    if (!file) {
        throw std::runtime_error("cannot read " + path);
    }
    return Block(std::istreambuf_iterator<char>(file), {});
}

std::string in_words(leafgraph::Reply reply, const Block &block) {
    const std::string said = "reply " + std::to_string(reply.number()) + ", " + reply.what();
    const leafgraph::Place place = leafgraph::place_in(reply, block);
    return place.kind == leafgraph::PlaceKind::none
               ? said
               : said + ", " + leafgraph::what(place.kind) + " " + std::to_string(place.number);
}

void put_input(Block &block, std::size_t slot, std::size_t place, std::size_t named) {
    put_number(block, slot, 4 + 2 * place, named);
}

void put_count(Block &block, std::size_t slot, std::size_t count) {
    put_number(block, slot, 40, count);
}

bool is_call(const Slot &slot, Operator op) {
    return slot.kind == Kind::call && slot.op == static_cast<unsigned>(op);
}

std::vector<std::size_t> calls(const Graph &graph, Operator op) {
    return slots_with(graph, [&](const Slot &slot) { return is_call(slot, op); });
}

std::vector<std::size_t> readers(const Graph &graph, std::size_t slot) {
    return slots_with(graph,
                      [&](const Slot &reader) { return occurrences(reader.inputs, slot) > 0; });
}

std::vector<bool> leading_to(const Graph &graph, std::size_t slot) {
    std::vector<bool> leads(graph.slots.size(), false);
    std::vector<std::size_t> open = {slot};
    while (!open.empty()) {
        const std::size_t next = open.back();
        open.pop_back();
        if (!leads[next]) {
            leads[next] = true;
            const auto &inputs = graph.slots[next].inputs;
            open.insert(open.end(), inputs.begin(), inputs.end());
        }
    }
    return leads;
}

bool has_true_counts(const Graph &graph) {
    for (std::size_t slot = 0; slot < graph.slots.size(); slot++) {
        if (graph.slots[slot].count != uses(graph, slot)) {
            return false;
        }
    }
    return true;
}

std::string in_words(const Slot &slot) {
    std::string text = name_of(slot);
    if (!slot.inputs.empty()) {
        text += "(" + joined(slot.inputs, ", ") + ")";
    }
    if (!slot.attributes.empty()) {
        text += " {" + joined(slot.attributes, " ") + "}";
    }
    return text;
}

} // namespace demo
