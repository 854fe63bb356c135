// The leaf pipeline in lines that an engineer can read.
#ifndef LEAFGRAPH_DEMO_LISTING_HPP
#define LEAFGRAPH_DEMO_LISTING_HPP

#include "graph.hpp"
#include "leaf.hpp"

#include <cstddef>
#include <string>
#include <vector>

namespace demo {

// The vertices that have to be worked out, for each photograph or once for all.
std::vector<std::size_t> stages(const Graph &graph, bool for_each_photograph);

// The numbers, each after a space.
std::string listed(const std::vector<std::size_t> &slots);

// Prints the vertices and the outputs, and for which outputs a vertex is needed.
void show_graph(const char *when, const Graph &graph, const Names &variable_names);

} // namespace demo

#endif // LEAFGRAPH_DEMO_LISTING_HPP
