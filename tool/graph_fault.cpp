#include "graph_fault.hpp"

#include <algorithm>
#include <deque>
#include <vector>

#include "blocks.hpp"
#include "input.hpp"
#include "text.hpp"

namespace leafgraph::tool {
namespace {

constexpr std::size_t header_length = 24;
constexpr std::size_t record_length = 48;
constexpr std::size_t places = 6; // for inputs, and for attributes
constexpr std::size_t output_places = 4;
constexpr unsigned unused_place = 65535;

// The parts of a graph block, sound or not. All of them are in the same place in both
// versions.
class GraphView {
public:
    explicit GraphView(Bytes graph) : fields_(graph) {}

    const Fields &fields() const { return fields_; }
    unsigned slots() const { return fields_.number16(6); }
    unsigned outputs() const { return fields_.number16(8); }
    unsigned output(std::size_t place) const { return fields_.number16(10 + 2 * place); }

    std::size_t record(std::size_t slot) const { return header_length + record_length * slot; }
    unsigned kind(std::size_t slot) const { return fields_.number8(record(slot)); }
    // The counts, but no more than there are places.
    std::size_t inputs(std::size_t slot) const { return count(record(slot) + 2); }
    std::size_t attributes(std::size_t slot) const { return count(record(slot) + 3); }

    unsigned input(std::size_t slot, std::size_t place) const {
        return fields_.number16(record(slot) + 4 + 2 * place);
    }
    // Attribute places count from 1.
    std::int32_t attribute(std::size_t slot, std::size_t place) const {
        return fields_.signed32(record(slot) + 12 + 4 * place);
    }

private:
    std::size_t count(std::size_t at) const {
        return std::min(places, std::size_t{fields_.number8(at)});
    }

    Fields fields_;
};

Fault header_fault(const GraphView &graph, unsigned version) {
    const Fields &fields = graph.fields();
    const unsigned slots = graph.slots(), outputs = graph.outputs();
    return first_of(
        {cut_header_fault(fields, header_length), beginning_fault(fields, graph_mark, version),
         unless(1 <= slots && slots <= 512, "N", slots, "1 to 512"),
         length_fault(fields.size(), largest_graph_block, "24 + 48 * " + std::to_string(slots),
                      graph.record(slots)),
         unless(1 <= outputs && outputs <= output_places, "the output count", outputs, "1 to 4"),
         unused_fault("output place", outputs, output_places,
                      [&](std::size_t place) { return graph.output(place); }, unused_place),
         zeros_fault(fields, 0, 18, header_length)});
}

Fault index_fault(const GraphView &graph, std::size_t slot) {
    const std::int32_t index = graph.attribute(slot, 1);
    const bool is_projection = static_cast<Kind>(graph.kind(slot)) == Kind::projection;
    return unless(!is_projection || index >= 1, "the index", index, "1 or more");
}

Fault record_fault(const GraphView &graph, std::size_t slot, unsigned version) {
    const std::size_t zeros = version == LG_VERSION_TO_IMPORT ? 40 : 42; // behind a count
    const auto input = [&](std::size_t place) { return graph.input(slot, place); };
    const auto attribute = [&](std::size_t place) { return graph.attribute(slot, place); };
    return first_of(
        {head_fault(graph.fields(), graph.record(slot), "an Empty slot"),
         unused_fault("input place", graph.inputs(slot), places, input, unused_place),
         unused_fault("attribute", graph.attributes(slot) + 1, places + 1, attribute, 0),
         index_fault(graph, slot), zeros_fault(graph.fields(), graph.record(slot), zeros, 48)});
}

// What names a slot that is not there, or that holds no vertex.
Fault name_fault(const GraphView &graph, const std::string &what, unsigned slot) {
    const std::string names = what + " names slot " + std::to_string(slot);
    if (slot >= graph.slots()) {
        return names + ", and N is " + std::to_string(graph.slots());
    }
    return graph.kind(slot) == 0 ? names + ", which is Empty" : "";
}

Fault inputs_fault(const GraphView &graph, std::size_t slot) {
    for (std::size_t place = 0; place < graph.inputs(slot); ++place) {
        const Fault fault
            = name_fault(graph, "input " + std::to_string(place), graph.input(slot, place));
        if (!fault.empty()) {
            return fault;
        }
    }
    return "";
}

Fault output_fault(const GraphView &graph, std::size_t place) {
    const bool used = place < std::min<std::size_t>(graph.outputs(), output_places);
    return used ? name_fault(graph, "it", graph.output(place)) : "";
}

// The slots on a shortest cycle through this one, each read by the one before, from it
// and back to it; empty if there is none. A search by widening circles: whatever is
// reached first is reached by a shortest way.
std::vector<std::size_t> shortest_cycle(const GraphView &graph, std::size_t start) {
    const std::size_t nobody = graph.slots();
    std::vector<std::size_t> reader(nobody, nobody);
    std::deque<std::size_t> waiting = {start};
    while (!waiting.empty()) {
        const std::size_t slot = waiting.front();
        waiting.pop_front();
        for (std::size_t place = 0; place < graph.inputs(slot); ++place) {
            const std::size_t read = graph.input(slot, place);
            if (read < nobody && reader[read] == nobody) {
                reader[read] = slot;
                waiting.push_back(read);
            }
        }
    }
    if (start >= nobody || reader[start] == nobody) {
        return {};
    }
    std::vector<std::size_t> cycle = {start};
    do {
        cycle.push_back(reader[cycle.back()]);
    } while (cycle.back() != start);
    std::reverse(cycle.begin(), cycle.end());
    return cycle;
}

// "on a cycle: it reads 5, which reads 3". Of a long one the first slots and the last are
// told.
Fault cycle_fault(const GraphView &graph, std::size_t slot) {
    constexpr std::size_t most_told = 8;
    const std::vector<std::size_t> cycle = shortest_cycle(graph, slot);
    if (cycle.empty()) {
        return "";
    }
    const std::size_t length = cycle.size() - 1;
    if (length == 1) {
        return "on a cycle: it reads itself";
    }
    const bool is_long = length > most_told;
    std::string text = is_long ? "on a cycle of " + std::to_string(length) + " slots: it reads "
                               : "on a cycle: it reads ";
    text += std::to_string(cycle[1]);
    for (std::size_t at = 2; at <= length; ++at) {
        if (!is_long || at < most_told - 1 || at == length) {
            text += ", which reads " + std::to_string(cycle[at]);
        } else if (at == most_told - 1) {
            text += ", ...";
        }
    }
    return text;
}

// "the stored count is 5, 2 wanted: 1 input place and 1 output name it".
Fault count_fault(Bytes block, std::size_t slot) {
    const GraphView graph(block);
    unsigned inputs = 0, outputs = 0;
    for (std::size_t reader = 0; reader < graph.slots(); ++reader) {
        for (std::size_t place = 0; place < graph.inputs(reader); ++place) {
            inputs += graph.input(reader, place) == slot ? 1 : 0;
        }
    }
    for (std::size_t place = 0; place < graph.outputs() && place < output_places; ++place) {
        outputs += graph.output(place) == slot ? 1 : 0;
    }
    const Fault fault
        = unless_equal("the stored count", stored_count(block, slot), inputs + outputs);
    return fault.empty() ? ""
                         : fault + ": " + counted(inputs, "input place", "input places") + " and "
                               + counted(outputs, "output", "outputs") + " name it";
}

} // namespace

Fault graph_fault(Reply reply, Bytes block, unsigned version) {
    const GraphView graph(block);
    const Place place = place_in(reply, block);
    switch (reply.code()) {
    case Code::bad_graph_header:
        return header_fault(graph, version);
    case Code::bad_graph_record:
        return record_fault(graph, place.number, version);
    case Code::bad_graph_name:
        return place.kind == PlaceKind::slot ? inputs_fault(graph, place.number)
                                             : output_fault(graph, place.number);
    case Code::graph_has_cycle:
        return cycle_fault(graph, place.number);
    case Code::bad_graph_count:
        return count_fault(block, place.number);
    default:
        return "";
    }
}

} // namespace leafgraph::tool
