#include "rule_fault.hpp"

#include <algorithm>
#include <vector>

#include "input.hpp"
#include "names.hpp"

namespace leafgraph::tool {
namespace {

// A used source output that is no source vertex counts as a fault of the header.
Fault source_outputs_fault(const RuleView &rule) {
    for (std::size_t place = 0; place < rule.used_outputs(); ++place) {
        const unsigned vertex = rule.source_output(place);
        if (vertex >= rule.sources()) {
            return unless(false, "source output " + std::to_string(place), vertex,
                          "a number below S = " + std::to_string(rule.sources()));
        }
    }
    return "";
}

Fault unused_outputs_fault(const RuleView &rule) {
    const std::size_t used = rule.used_outputs(), all = RuleView::output_places;
    const auto source = [&](std::size_t place) { return rule.source_output(place); };
    const auto target = [&](std::size_t place) { return rule.target_output(place); };
    return first_of({unused_fault("source output place", used, all, source, RuleView::unused_place),
                     unused_fault("target output place", used, all, target,
                                  RuleView::unused_place)});
}

Fault rule_length_fault(const RuleView &rule) {
    const std::string sum = "16 + 16 * (" + std::to_string(rule.sources()) + " + "
                            + std::to_string(rule.targets()) + ") + 8 * "
                            + std::to_string(rule.nodes());
    return length_fault(rule.fields().size(), largest_rule_block, sum, rule.node(rule.nodes()));
}

Fault header_fault(const RuleView &rule) {
    const Fields &fields = rule.fields();
    const unsigned sources = rule.sources(), outputs = rule.outputs();
    return first_of({cut_header_fault(fields, RuleView::header_length),
                     beginning_fault(fields, rule_mark, 1),
                     unless(1 <= sources && sources <= 16, "S", sources, "1 to 16"),
                     unless(rule.targets() <= 16, "T", rule.targets(), "0 to 16"),
                     unless(1 <= outputs && outputs <= 2, "K", outputs, "1 or 2"),
                     unless(rule.nodes() <= 64, "A", rule.nodes(), "0 to 64"),
                     rule_length_fault(rule), source_outputs_fault(rule),
                     unused_outputs_fault(rule),
                     zeros_fault(fields, 0, 14, RuleView::header_length)});
}

Fault unused_places_fault(const RuleView &rule, std::size_t vertex) {
    const auto input = [&](std::size_t place) { return rule.input(vertex, place); };
    const auto attribute = [&](std::size_t place) { return rule.attribute(vertex, place); };
    return first_of({unused_fault("input place", rule.inputs(vertex), RuleView::places, input,
                                  RuleView::unused_place),
                     unused_fault("attribute", rule.attributes(vertex) + 1, RuleView::places + 1,
                                  attribute, RuleView::unused_place)});
}

Fault input_fault(const RuleView &rule, std::size_t vertex, std::size_t place) {
    const unsigned named = rule.input(vertex, place);
    if (vertex >= rule.sources()) {
        return target_place_fault(rule, named, vertex - rule.sources());
    }
    return named < vertex ? ""
                          : "source vertex " + std::to_string(named) + ", a lower one wanted";
}

Fault inputs_fault(const RuleView &rule, std::size_t vertex) {
    for (std::size_t place = 0; place < rule.inputs(vertex); ++place) {
        const Fault fault = input_fault(rule, vertex, place);
        if (!fault.empty()) {
            return "input " + std::to_string(place) + " names " + fault;
        }
    }
    return "";
}

Fault target_kind_fault(const RuleView &rule, std::size_t vertex) {
    const Kind kind = rule.kind(vertex);
    return vertex < rule.sources() || !makes_rule_input(kind)
               ? ""
               : "it is a " + kind_word(kind) + "; a const, call, tuple or proj is wanted";
}

Fault record_fault(const RuleView &rule, std::size_t vertex) {
    return first_of({target_kind_fault(rule, vertex),
                     head_fault(rule.fields(), rule.record(vertex), "a wildcard"),
                     unused_places_fault(rule, vertex), inputs_fault(rule, vertex)});
}

// The walk that gives the visiting order. A vertex is noted when it is come to, and not
// only when it is left, so that the walk ends on any bytes.
class Walk {
public:
    explicit Walk(const RuleView &rule) : rule_(rule), seen_(rule.sources()) {
        for (std::size_t place = 0; place < rule.used_outputs(); ++place) {
            visit(rule.source_output(place));
        }
    }

    const std::vector<std::size_t> &order() const { return order_; }

private:
    void visit(std::size_t vertex) {
        if (vertex >= seen_.size() || seen_[vertex]) {
            return;
        }
        seen_[vertex] = true;
        for (std::size_t place = 0; place < rule_.inputs(vertex); ++place) {
            visit(rule_.input(vertex, place));
        }
        order_.push_back(vertex);
    }

    const RuleView &rule_;
    std::vector<bool> seen_;
    std::vector<std::size_t> order_;
};

Fault order_fault(const RuleView &rule, std::size_t vertex) {
    const std::vector<std::size_t> order = Walk(rule).order();
    if (vertex >= rule.sources() || (vertex < order.size() && order[vertex] == vertex)) {
        return "";
    }
    return vertex < order.size()
               ? "the walk from the outputs visits source vertex "
                     + std::to_string(order[vertex]) + " in its place"
               : "no output reaches it, so that the walk from the outputs ends before it";
}

} // namespace

Fault target_place_fault(const RuleView &rule, unsigned place, std::size_t first_later) {
    if (place < first_target_place) {
        const std::string source = "source vertex " + std::to_string(place);
        if (place >= rule.sources()) {
            return source + ", and S is " + std::to_string(rule.sources());
        }
        return rule.is_rule_input(place) ? "" : source + ", which is no rule input";
    }
    const std::size_t vertex = place - first_target_place;
    if (vertex < first_later) {
        return "";
    }
    const std::string target = "target vertex " + std::to_string(vertex);
    return vertex < rule.targets() ? target + ", an earlier one wanted"
                                   : target + ", and T is " + std::to_string(rule.targets());
}

Fault rule_fault(Reply reply, Bytes block) {
    const RuleView rule(block);
    const std::size_t place = reply.place();
    switch (reply.code()) {
    case Code::bad_rule_header:
        return header_fault(rule);
    case Code::bad_rule_record:
        return record_fault(rule, place);
    case Code::bad_rule_order:
        return order_fault(rule, place);
    case Code::bad_rule_outputs:
        return outputs_fault(rule);
    case Code::bad_rule_expression:
        return place_in(reply, block).kind == PlaceKind::node ? node_fault(rule, place)
                                                              : use_fault(rule, place);
    default:
        return "";
    }
}

} // namespace leafgraph::tool
