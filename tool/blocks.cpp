#include "blocks.hpp"

#include <algorithm>

#include "fields.hpp"

namespace leafgraph::tool {
namespace {

// So many numbers or records in a row, each of so many bytes.
template <class Read>
auto list(std::size_t at, std::size_t count, std::size_t width, Read read) {
    std::vector<decltype(read(at))> all;
    for (std::size_t place = 0; place < count; ++place) {
        all.push_back(read(at + width * place));
    }
    return all;
}

std::vector<unsigned> list8(Fields block, std::size_t at, std::size_t count) {
    return list(at, count, 1, [=](std::size_t place) { return block.number8(place); });
}

std::vector<unsigned> list16(Fields block, std::size_t at, std::size_t count) {
    return list(at, count, 2, [=](std::size_t place) { return block.number16(place); });
}

std::vector<std::int32_t> list32(Fields block, std::size_t at, std::size_t count) {
    return list(at, count, 4, [=](std::size_t place) { return block.signed32(place); });
}

// Bytes 2 and 3 of a vertex's record, in a graph and in a rule, say how many
// inputs and attributes it has.
Slot read_slot(Fields block, std::size_t at) {
    return {static_cast<Kind>(block.number8(at)), block.number8(at + 1),
            list16(block, at + 4, block.number8(at + 2)),
            list32(block, at + 16, block.number8(at + 3)), block.number16(at + 40)};
}

Pattern read_pattern(Fields block, std::size_t at) {
    return {static_cast<Kind>(block.number8(at)), block.number8(at + 1),
            list8(block, at + 4, block.number8(at + 2)),
            list8(block, at + 10, block.number8(at + 3))};
}

Node read_node(Fields block, std::size_t at) {
    return {static_cast<Form>(block.number8(at)), block.number8(at + 1), block.number8(at + 2),
            block.signed32(at + 4)};
}

} // namespace

std::size_t count_vertices(const Graph &graph) {
    const auto is_vertex = [](const Slot &slot) { return slot.kind != Kind::empty; };
    return static_cast<std::size_t>(
        std::count_if(graph.slots.begin(), graph.slots.end(), is_vertex));
}

Graph read_graph(Bytes sound_block) {
    const Fields block(sound_block);
    const auto slot = [=](std::size_t at) { return read_slot(block, at); };
    return {list(24, block.number16(6), 48, slot), list16(block, 10, block.number16(8))};
}

Rule read_rule(Bytes sound_block) {
    const Fields block(sound_block);
    const auto pattern = [=](std::size_t at) { return read_pattern(block, at); };
    const auto node = [=](std::size_t at) { return read_node(block, at); };
    const std::size_t source_count = block.number8(6);
    const std::size_t target_count = block.number8(7);
    const std::size_t output_count = block.number8(8);
    const std::size_t node_count = block.number8(9);
    const std::size_t target = 16 + 16 * source_count;
    const std::size_t nodes = target + 16 * target_count;
    return {list(16, source_count, 16, pattern), list8(block, 10, output_count),
            list(target, target_count, 16, pattern), list8(block, 12, output_count),
            list(nodes, node_count, 8, node)};
}

} // namespace leafgraph::tool
