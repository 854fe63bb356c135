// What is wrong with a refused rule block, in words.
#ifndef LEAFGRAPH_TOOL_RULE_FAULT_HPP
#define LEAFGRAPH_TOOL_RULE_FAULT_HPP

#include <cstddef>

#include "fault.hpp"
#include "leafgraph.hpp"
#include "rule_view.hpp"

namespace leafgraph::tool {

// What stands in the place that the reply gives for this block: "input 0 names source
// vertex 1, which is no rule input". It takes any bytes; empty if nothing is found wrong
// there.
Fault rule_fault(Reply reply, Bytes rule);

// Parts of it, in files of their own.

// Outputs and connection: the first of the conditions, in the order of docs/FORMATS.md,
// that does not hold.
Fault outputs_fault(const RuleView &rule);

// A node that is not well formed, and a vertex that uses one badly.
Fault node_fault(const RuleView &rule, std::size_t node);
Fault use_fault(const RuleView &rule, std::size_t vertex);

// A target place that names no rule input, and no target vertex before this one.
Fault target_place_fault(const RuleView &rule, unsigned place, std::size_t first_later);

} // namespace leafgraph::tool

#endif // LEAFGRAPH_TOOL_RULE_FAULT_HPP
