// The parts of a rule block, sound or not.
#ifndef LEAFGRAPH_TOOL_RULE_VIEW_HPP
#define LEAFGRAPH_TOOL_RULE_VIEW_HPP

#include <algorithm>
#include <cstddef>

#include "blocks.hpp"
#include "fields.hpp"

namespace leafgraph::tool {

// Vertices are counted as the library counts them: the source's from 0, the target's
// from the number of source vertices on. Any bytes can be looked at.
class RuleView {
public:
    static constexpr std::size_t header_length = 16;
    static constexpr std::size_t record_length = 16;
    static constexpr std::size_t node_length = 8;
    static constexpr std::size_t places = 6; // for inputs, and for attributes
    static constexpr std::size_t output_places = 2;
    static constexpr unsigned unused_place = 255;

    explicit RuleView(Bytes rule) : fields_(rule) {}

    const Fields &fields() const { return fields_; }
    unsigned sources() const { return fields_.number8(6); }
    unsigned targets() const { return fields_.number8(7); }
    unsigned outputs() const { return fields_.number8(8); }
    unsigned nodes() const { return fields_.number8(9); }
    // Those that the header counts, but no more than there are places.
    std::size_t used_outputs() const { return count(8, output_places); }
    unsigned source_output(std::size_t place) const { return fields_.number8(10 + place); }
    unsigned target_output(std::size_t place) const { return fields_.number8(12 + place); }

    std::size_t vertices() const { return std::size_t{sources()} + targets(); }
    std::size_t record(std::size_t vertex) const { return header_length + record_length * vertex; }
    unsigned kind_number(std::size_t vertex) const { return fields_.number8(record(vertex)); }
    Kind kind(std::size_t vertex) const { return static_cast<Kind>(kind_number(vertex)); }
    std::size_t inputs(std::size_t vertex) const { return count(record(vertex) + 2, places); }
    std::size_t attributes(std::size_t vertex) const { return count(record(vertex) + 3, places); }
    unsigned input(std::size_t vertex, std::size_t place) const {
        return fields_.number8(record(vertex) + 4 + place);
    }
    // The number of an attribute's node. Attribute places count from 1.
    unsigned attribute(std::size_t vertex, std::size_t place) const {
        return fields_.number8(record(vertex) + 9 + place);
    }

    bool is_rule_input(std::size_t vertex) const {
        return vertex < sources() && makes_rule_input(kind(vertex));
    }

    std::size_t node(std::size_t number) const {
        return record(vertices()) + node_length * number;
    }
    unsigned form_number(std::size_t number) const { return fields_.number8(node(number)); }
    Form form(std::size_t number) const { return static_cast<Form>(form_number(number)); }
    unsigned a(std::size_t number) const { return fields_.number8(node(number) + 1); }
    unsigned b(std::size_t number) const { return fields_.number8(node(number) + 2); }

private:
    std::size_t count(std::size_t at, std::size_t most) const {
        return std::min(most, std::size_t{fields_.number8(at)});
    }

    Fields fields_;
};

} // namespace leafgraph::tool

#endif // LEAFGRAPH_TOOL_RULE_VIEW_HPP
