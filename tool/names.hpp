// The names of kinds and operators.
#ifndef LEAFGRAPH_TOOL_NAMES_HPP
#define LEAFGRAPH_TOOL_NAMES_HPP

#include <string>

#include "blocks.hpp"

namespace leafgraph::tool {

// How a text tells an operator: "call 7" or "call relu".
enum class Operators { as_numbers, as_names };

// The name of an operator that a sound block has: "relu" for 7.
std::string operator_name(unsigned op);

// The word for a kind. Number 0 is "wildcard": Empty slots are not printed.
std::string kind_word(Kind kind);

// What a vertex is, as texts say it: its kind, and a call's operator.
std::string vertex_words(Kind kind, unsigned op, Operators operators);

} // namespace leafgraph::tool

#endif // LEAFGRAPH_TOOL_NAMES_HPP
