// A rule as text: its source, its target and its expression nodes.
#ifndef LEAFGRAPH_TOOL_RULE_TEXT_HPP
#define LEAFGRAPH_TOOL_RULE_TEXT_HPP

#include <string>

#include "blocks.hpp"
#include "names.hpp"

namespace leafgraph::tool {

// For instance, with operators as names:
//
//     rule
//     source
//     0 wildcard [] {}
//     1 call cast [0] {n0}
//     2 call cast [1] {n0}
//     out 2
//     target
//     0 call cast [s0] {n1}
//     out t0
//     nodes
//     0 any
//     1 s2.1
//
// In the target s0 is source vertex 0 and t0 is target vertex 0; n0 is node 0,
// and s2.1 the first attribute of what source vertex 2 matches. Without nodes
// that section is left out.
std::string rule_text(const Rule &rule, Operators operators);

} // namespace leafgraph::tool

#endif // LEAFGRAPH_TOOL_RULE_TEXT_HPP
