#include <optional>
#include <vector>

#include "rule_fault.hpp"

namespace leafgraph::tool {
namespace {

constexpr unsigned last_form = 7;

// Every form behind access names two nodes.
bool has_operands(const RuleView &rule, std::size_t node) {
    return rule.form_number(node) > static_cast<unsigned>(Form::access);
}

// The fields that a form does not use are zero.
Fault zero_fields_fault(const RuleView &rule, std::size_t node) {
    const bool has_names = rule.form(node) == Form::access || has_operands(rule, node);
    const bool has_number = rule.form(node) == Form::constant;
    const std::int32_t number = rule.fields().signed32(rule.node(node) + 4);
    return first_of({has_names ? "" : unless_equal("unused a", rule.a(node), 0),
                     has_names ? "" : unless_equal("unused b", rule.b(node), 0),
                     zeros_fault(rule.fields(), rule.node(node), 3, 4),
                     has_number ? "" : unless_equal("the unused number", number, 0)});
}

Fault access_fault(const RuleView &rule, std::size_t node) {
    const unsigned vertex = rule.a(node), place = rule.b(node);
    return first_of({unless(vertex < rule.sources(), "the source vertex a", vertex,
                            "a number below S = " + std::to_string(rule.sources())),
                     unless(1 <= place && place <= 6, "the attribute place b", place, "1 to 6")});
}

Fault operand_fault(const RuleView &rule, std::size_t node, const std::string &name,
                    unsigned operand) {
    const std::string names = "operand " + name + " names node " + std::to_string(operand);
    if (operand >= node) {
        return names + ", an earlier one wanted";
    }
    return rule.form(operand) == Form::any ? names + ", which is any" : "";
}

// A source vertex at or above this one that a node accesses, itself or through its
// operands. Operands are earlier nodes, so that one pass downwards meets them all.
std::optional<unsigned> late_access(const RuleView &rule, std::size_t node, std::size_t vertex) {
    std::vector<bool> is_part(node + 1);
    is_part[node] = true;
    for (std::size_t part = node + 1; part-- > 0;) {
        const unsigned a = rule.a(part), b = rule.b(part);
        if (!is_part[part]) {
            continue;
        }
        if (rule.form(part) == Form::access && a >= vertex) {
            return a;
        }
        if (has_operands(rule, part) && a < part && b < part) {
            is_part[a] = is_part[b] = true;
        }
    }
    return {};
}

Fault attribute_fault(const RuleView &rule, std::size_t vertex, unsigned node) {
    const std::string uses = "uses node " + std::to_string(node);
    if (node >= rule.nodes()) {
        return uses + ", and A is " + std::to_string(rule.nodes());
    }
    if (vertex >= rule.sources()) {
        return rule.form(node) == Form::any ? uses + ", which is any" : "";
    }
    const std::optional<unsigned> accessed = late_access(rule, node, vertex);
    return accessed ? uses + ", which accesses source vertex " + std::to_string(*accessed)
                          + ", a lower one wanted"
                    : "";
}

} // namespace

Fault node_fault(const RuleView &rule, std::size_t node) {
    const unsigned form = rule.form_number(node);
    if (form > last_form) {
        return unless(false, "the form", form, "0 to 7");
    }
    const Fault zeros = zero_fields_fault(rule, node);
    if (has_operands(rule, node)) {
        return first_of({zeros, operand_fault(rule, node, "a", rule.a(node)),
                         operand_fault(rule, node, "b", rule.b(node))});
    }
    return rule.form(node) == Form::access ? first_of({zeros, access_fault(rule, node)}) : zeros;
}

Fault use_fault(const RuleView &rule, std::size_t vertex) {
    for (std::size_t place = 1; place <= rule.attributes(vertex); ++place) {
        const Fault fault = attribute_fault(rule, vertex, rule.attribute(vertex, place));
        if (!fault.empty()) {
            return "attribute " + std::to_string(place) + " " + fault;
        }
    }
    return "";
}

} // namespace leafgraph::tool
