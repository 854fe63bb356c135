#include "rule_text.hpp"

#include <cstddef>

#include "text.hpp"

namespace leafgraph::tool {
namespace {

std::string place(unsigned number) {
    return number < first_target_place ? "s" + std::to_string(number)
                                       : "t" + std::to_string(number - first_target_place);
}

std::string places(const std::vector<unsigned> &numbers) {
    std::string text;
    for (const unsigned number : numbers) {
        text += (text.empty() ? "" : " ") + place(number);
    }
    return text;
}

// The lines of one side; inputs are said as that side says them.
std::string vertex_lines(const std::vector<Pattern> &vertices, Operators operators,
                         std::string (*inputs)(const std::vector<unsigned> &)) {
    std::string text;
    for (std::size_t number = 0; number < vertices.size(); ++number) {
        const Pattern &vertex = vertices[number];
        text += std::to_string(number) + " "
                + vertex_words(vertex.kind, vertex.op, operators) + " ["
                + inputs(vertex.inputs) + "] {" + spaced(vertex.attributes, "n") + "}\n";
    }
    return text;
}

std::string source_numbers(const std::vector<unsigned> &numbers) {
    return spaced(numbers);
}

std::string operation(const Node &node, const std::string &sign) {
    return "n" + std::to_string(node.a) + " " + sign + " n" + std::to_string(node.b);
}

std::string expression(const Node &node) {
    switch (node.form) {
    case Form::any:
        return "any";
    case Form::constant:
        return std::to_string(node.number);
    case Form::access:
        return "s" + std::to_string(node.a) + "." + std::to_string(node.b);
    case Form::add:
        return operation(node, "+");
    case Form::subtract:
        return operation(node, "-");
    case Form::multiply:
        return operation(node, "*");
    case Form::divide:
        return operation(node, "/");
    case Form::remainder:
        return operation(node, "%");
    }
    return "?"; // no sound rule has another form
}

std::string node_lines(const std::vector<Node> &nodes) {
    std::string text = nodes.empty() ? "" : "nodes\n";
    for (std::size_t number = 0; number < nodes.size(); ++number) {
        text += std::to_string(number) + " " + expression(nodes[number]) + "\n";
    }
    return text;
}

} // namespace

std::string rule_text(const Rule &rule, Operators operators) {
    return "rule\nsource\n" + vertex_lines(rule.source, operators, source_numbers)
           + "out " + source_numbers(rule.source_outputs)
           + "\ntarget\n" + vertex_lines(rule.target, operators, places)
           + "out " + places(rule.target_outputs) + "\n" + node_lines(rule.nodes);
}

} // namespace leafgraph::tool
