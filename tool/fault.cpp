#include "fault.hpp"

#include <array>

#include "blocks.hpp"
#include "names.hpp"
#include "text.hpp"

namespace leafgraph::tool {
namespace {

// How many inputs and attributes a vertex has: document 01's tables.
struct Counts {
    unsigned least_inputs;
    unsigned most_inputs;
    unsigned attributes;
};

constexpr unsigned last_kind = 5;
constexpr std::array<Counts, last_kind + 1> kind_counts = {
    {{0, 0, 0}, {0, 0, 1}, {0, 0, 5}, {}, {1, 6, 0}, {1, 1, 1}}}; // a call's are its operator's

constexpr unsigned last_operator = 14;
constexpr std::array<Counts, last_operator> operator_counts = { // from operator 1 on
    {{2, 2, 0}, {2, 2, 0}, {2, 2, 0}, {2, 2, 4}, {2, 2, 1}, {5, 5, 2}, {1, 1, 0},
     {1, 1, 1}, {1, 1, 2}, {1, 1, 3}, {1, 1, 1}, {1, 1, 1}, {1, 1, 4}, {1, 1, 1}}};

std::string range(unsigned least, unsigned most) {
    return least == most ? std::to_string(least)
                         : std::to_string(least) + " to " + std::to_string(most);
}

// A field that for a kind or an operator of this name must be in a range.
Fault unless_fits(unsigned is, unsigned least, unsigned most, const std::string &what,
                  const std::string &name) {
    const Fault fault = unless(least <= is && is <= most, what, is, range(least, most));
    return fault.empty() ? "" : fault + " for " + name;
}

// n and m.
Fault counts_fault(unsigned inputs, unsigned attributes, const Counts &counts,
                   const std::string &name) {
    return first_of({unless_fits(inputs, counts.least_inputs, counts.most_inputs, "n", name),
                     unless_fits(attributes, counts.attributes, counts.attributes, "m", name)});
}

// The bytes of a mark as they are written in hex: "4c 47 54".
std::string hex(const std::string &bytes) {
    constexpr std::array digits = {'0', '1', '2', '3', '4', '5', '6', '7',
                                   '8', '9', 'a', 'b', 'c', 'd', 'e', 'f'};
    std::string text;
    for (const char letter : bytes) {
        const auto byte = static_cast<unsigned char>(letter);
        text += text.empty() ? "" : " ";
        text += digits.at(byte / 16);
        text += digits.at(byte % 16);
    }
    return text;
}

} // namespace

Fault first_of(std::initializer_list<Fault> faults) {
    for (const Fault &fault : faults) {
        if (!fault.empty()) {
            return fault;
        }
    }
    return "";
}

Fault unless(bool holds, const std::string &what, long long is, const std::string &wanted) {
    return holds ? "" : what + " is " + std::to_string(is) + ", " + wanted + " wanted";
}

Fault unless_equal(const std::string &what, long long is, long long wanted) {
    return unless(is == wanted, what, is, std::to_string(wanted));
}

Fault version_fault(unsigned is, unsigned wanted) {
    return unless_equal("the version", is, wanted);
}

Fault beginning_fault(const Fields &block, const std::string &mark, unsigned version) {
    std::string begins;
    for (std::size_t at = 0; at < mark.size(); ++at) {
        begins += static_cast<char>(block.number8(at));
    }
    return first_of({begins == mark ? "" : "the mark is " + hex(begins) + ", " + hex(mark) + " ("
                                               + mark + ") wanted",
                     unless_equal("byte 3", block.number8(3), 0),
                     version_fault(block.number16(4), version)});
}

Fault cut_header_fault(const Fields &block, std::size_t header_length) {
    return block.size() >= header_length
               ? ""
               : "the length is " + counted(block.size(), "byte", "bytes") + ", "
                     + std::to_string(header_length) + " wanted for the header alone";
}

Fault length_fault(std::size_t is, std::size_t largest, const std::string &sum,
                   std::size_t wanted) {
    if (is == wanted) {
        return "";
    }
    const std::string length = is > largest ? "more than " + std::to_string(largest)
                                            : std::to_string(is);
    return "the length is " + length + " bytes, " + sum + " = " + std::to_string(wanted)
           + " wanted";
}

Fault zeros_fault(const Fields &block, std::size_t start, std::size_t first, std::size_t end) {
    for (std::size_t at = first; at < end; ++at) {
        const Fault fault
            = unless_equal("byte " + std::to_string(at), block.number8(start + at), 0);
        if (!fault.empty()) {
            return fault;
        }
    }
    return "";
}

Fault head_fault(const Fields &block, std::size_t record, const std::string &kind_zero) {
    const unsigned kind = block.number8(record), op = block.number8(record + 1);
    const unsigned inputs = block.number8(record + 2), attributes = block.number8(record + 3);
    if (kind > last_kind) {
        return unless(false, "the kind", kind, range(0, last_kind));
    }
    if (static_cast<Kind>(kind) != Kind::call) {
        const std::string name = kind == 0 ? kind_zero : "a " + kind_word(static_cast<Kind>(kind));
        return first_of({unless_fits(op, 0, 0, "the operator", name),
                         counts_fault(inputs, attributes, kind_counts[kind], name)});
    }
    if (op < 1 || op > last_operator) {
        return unless(false, "the operator", op, range(1, last_operator));
    }
    return counts_fault(inputs, attributes, operator_counts[op - 1], operator_name(op));
}

} // namespace leafgraph::tool
