#include <algorithm>
#include <vector>

#include "names.hpp"
#include "rule_fault.hpp"

namespace leafgraph::tool {
namespace {

std::string output_words(const char *side, std::size_t place) {
    return std::string(side) + " output " + std::to_string(place);
}

Fault distinct_fault(const RuleView &rule) {
    const bool two = rule.used_outputs() == 2;
    return two && rule.source_output(0) == rule.source_output(1)
               ? "source outputs 0 and 1 both name source vertex "
                     + std::to_string(rule.source_output(0))
               : "";
}

Fault kind_fault(const RuleView &rule) {
    for (std::size_t place = 0; place < rule.used_outputs(); ++place) {
        const unsigned vertex = rule.source_output(place);
        if (rule.kind_number(vertex) < static_cast<unsigned>(Kind::call)) {
            return output_words("source", place) + " names source vertex " + std::to_string(vertex)
                   + ", a " + kind_word(rule.kind(vertex)) + "; a call, tuple or proj is wanted";
        }
    }
    return "";
}

// The lowest source vertex that reads this one; S if none does.
std::size_t reader_of(const RuleView &rule, unsigned vertex) {
    for (std::size_t reader = 0; reader < rule.sources(); ++reader) {
        for (std::size_t place = 0; place < rule.inputs(reader); ++place) {
            if (rule.input(reader, place) == vertex) {
                return reader;
            }
        }
    }
    return rule.sources();
}

Fault reader_fault(const RuleView &rule) {
    for (std::size_t place = 0; place < rule.used_outputs(); ++place) {
        const unsigned vertex = rule.source_output(place);
        const std::size_t reader = reader_of(rule, vertex);
        if (reader < rule.sources()) {
            return output_words("source", place) + " names source vertex " + std::to_string(vertex)
                   + ", which source vertex " + std::to_string(reader) + " reads";
        }
    }
    return "";
}

// Which outputs each source vertex reaches, a bit for each. Inputs are lower than their
// readers, so that all readers of a vertex are done before it.
std::vector<unsigned> reached_outputs(const RuleView &rule) {
    std::vector<unsigned> reached(rule.sources());
    const auto add = [&](unsigned vertex, unsigned outputs) {
        if (vertex < reached.size()) {
            reached[vertex] |= outputs;
        }
    };
    for (std::size_t place = 0; place < rule.used_outputs(); ++place) {
        add(rule.source_output(place), 1U << place);
    }
    for (std::size_t reader = reached.size(); reader-- > 0;) {
        for (std::size_t place = 0; place < rule.inputs(reader); ++place) {
            add(rule.input(reader, place), reached[reader]);
        }
    }
    return reached;
}

Fault connection_fault(const RuleView &rule) {
    const unsigned all = (1U << rule.used_outputs()) - 1;
    const std::vector<unsigned> reached = reached_outputs(rule);
    return std::find(reached.begin(), reached.end(), all) != reached.end()
               ? ""
               : "no source vertex reaches both source outputs";
}

Fault target_outputs_fault(const RuleView &rule) {
    for (std::size_t place = 0; place < rule.used_outputs(); ++place) {
        const Fault fault
            = target_place_fault(rule, rule.target_output(place), rule.targets());
        if (!fault.empty()) {
            return output_words("target", place) + " names " + fault;
        }
    }
    return "";
}

// Whether a target output or an input of a target vertex, from this one on, has this
// target place.
bool is_named(const RuleView &rule, std::size_t target_place, std::size_t from) {
    for (std::size_t place = 0; place < rule.used_outputs(); ++place) {
        if (rule.target_output(place) == target_place) {
            return true;
        }
    }
    for (std::size_t vertex = rule.sources() + from; vertex < rule.vertices(); ++vertex) {
        for (std::size_t place = 0; place < rule.inputs(vertex); ++place) {
            if (rule.input(vertex, place) == target_place) {
                return true;
            }
        }
    }
    return false;
}

Fault unnamed_fault(const RuleView &rule) {
    for (std::size_t vertex = 0; vertex < rule.sources(); ++vertex) {
        if (rule.is_rule_input(vertex) && !is_named(rule, vertex, 0)) {
            return "rule input " + std::to_string(vertex)
                   + " is named by no target vertex and no target output";
        }
    }
    for (std::size_t vertex = 0; vertex < rule.targets(); ++vertex) {
        if (!is_named(rule, first_target_place + vertex, vertex + 1)) {
            return "target vertex " + std::to_string(vertex)
                   + " is named by no later target vertex and no target output";
        }
    }
    return "";
}

} // namespace

Fault outputs_fault(const RuleView &rule) {
    return first_of({distinct_fault(rule), kind_fault(rule), reader_fault(rule),
                     connection_fault(rule), target_outputs_fault(rule), unnamed_fault(rule)});
}

} // namespace leafgraph::tool
