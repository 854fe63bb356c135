// Open files as the system numbers them, with every failure thrown as a
// std::system_error.
#ifndef LEAFGRAPH_TOOL_DESCRIPTOR_HPP
#define LEAFGRAPH_TOOL_DESCRIPTOR_HPP

#include <cstddef>
#include <cstdint>
#include <vector>

#include "leafgraph.hpp"

namespace leafgraph::tool {

// The result of a system call that says -1 for a failure.
int checked(int result);

// An open file that is closed when its owner goes.
class Descriptor {
public:
    explicit Descriptor(int number) : number_(checked(number)) {}
    ~Descriptor();
    Descriptor(const Descriptor &) = delete;
    Descriptor &operator=(const Descriptor &) = delete;

    int number() const noexcept { return number_; }

    // Closes now: some file systems tell only then that a write has failed.
    void close();

private:
    int number_; // -1 once closed
};

// All bytes from here on, but no more than the bound.
std::vector<std::uint8_t> read_up_to(int descriptor, std::size_t bound);

void write_all(int descriptor, Bytes bytes);

} // namespace leafgraph::tool

#endif // LEAFGRAPH_TOOL_DESCRIPTOR_HPP
