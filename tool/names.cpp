#include "names.hpp"

#include <array>
#include <cstddef>

namespace leafgraph::tool {
namespace {

// In the order of document 01's table, from operator 1 on.
constexpr std::array operator_names = {
    "add",    "mul",   "sub",  "conv2d", "bias_add", "batch_norm", "relu",
    "concat", "split", "gain", "vivid",  "mean",     "reshape",    "cast",
};

} // namespace

std::string operator_name(unsigned op) {
    return operator_names.at(std::size_t{op} - 1);
}

std::string kind_word(Kind kind) {
    constexpr std::array words = {"wildcard", "const", "variable", "call", "tuple", "proj"};
    return words.at(static_cast<std::size_t>(kind));
}

std::string vertex_words(Kind kind, unsigned op, Operators operators) {
    if (kind != Kind::call) {
        return kind_word(kind);
    }
    const bool by_name = operators == Operators::as_names;
    return kind_word(kind) + " " + (by_name ? operator_name(op) : std::to_string(op));
}

} // namespace leafgraph::tool
