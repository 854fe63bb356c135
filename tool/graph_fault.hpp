// What is wrong with a refused graph block, in words.
#ifndef LEAFGRAPH_TOOL_GRAPH_FAULT_HPP
#define LEAFGRAPH_TOOL_GRAPH_FAULT_HPP

#include "fault.hpp"
#include "leafgraph.hpp"

namespace leafgraph::tool {

// What stands in the place that the reply gives for this block: "input 2 names slot 40,
// which is Empty". The version is the one that the call takes. It takes any bytes; empty if
// nothing is found wrong there.
Fault graph_fault(Reply reply, Bytes graph, unsigned version);

} // namespace leafgraph::tool

#endif // LEAFGRAPH_TOOL_GRAPH_FAULT_HPP
