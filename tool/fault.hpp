// Pieces of what is said about a refused block: "N is 513, 1 to 512 wanted".
//
// The number and the place of a fault are the library's. What is said beside them comes
// from a look at the bytes in that place: it is for a reader, and decides nothing.
#ifndef LEAFGRAPH_TOOL_FAULT_HPP
#define LEAFGRAPH_TOOL_FAULT_HPP

#include <cstddef>
#include <initializer_list>
#include <string>

#include "fields.hpp"

namespace leafgraph::tool {

// What is wrong, in words; empty where nothing is.
using Fault = std::string;

// The first that is not empty.
Fault first_of(std::initializer_list<Fault> faults);

// Empty if it holds; else what a field is, and what is wanted of it.
Fault unless(bool holds, const std::string &what, long long is, const std::string &wanted);

// A field that must have this one number.
Fault unless_equal(const std::string &what, long long is, long long wanted);

// A version that is not the wanted one.
Fault version_fault(unsigned is, unsigned wanted);

// The fields with which both blocks begin: the mark, byte 3 and the version.
Fault beginning_fault(const Fields &block, const std::string &mark, unsigned version);

// A block that ends before its header does. Nothing else can be said of it.
Fault cut_header_fault(const Fields &block, std::size_t header_length);

// Of a file that is longer than any sound block only the first bytes were read, so that
// its length is not known. `sum` says how the wanted one is made up: "24 + 48 * 6".
Fault length_fault(std::size_t is, std::size_t largest, const std::string &sum,
                   std::size_t wanted);

// Places from the first unused one on, each of which must hold the filler.
template <class Number>
Fault unused_fault(const std::string &what, std::size_t first, std::size_t end, Number number,
                   long long filler) {
    for (std::size_t place = first; place < end; ++place) {
        const Fault fault
            = unless_equal("unused " + what + " " + std::to_string(place), number(place), filler);
        if (!fault.empty()) {
            return fault;
        }
    }
    return "";
}

// Bytes that must be zero. They are named from the beginning of the block or record.
Fault zeros_fault(const Fields &block, std::size_t start, std::size_t first, std::size_t end);

// The first four bytes of a record, in a graph and in a rule: kind, operator, and the
// counts n of inputs and m of attributes. Kind 0 has another name in either.
Fault head_fault(const Fields &block, std::size_t record, const std::string &kind_zero);

} // namespace leafgraph::tool

#endif // LEAFGRAPH_TOOL_FAULT_HPP
