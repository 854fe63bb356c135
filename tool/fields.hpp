// The numbers in the bytes of a block, which are little-endian.
#ifndef LEAFGRAPH_TOOL_FIELDS_HPP
#define LEAFGRAPH_TOOL_FIELDS_HPP

#include <cstddef>
#include <cstdint>

#include "leafgraph.hpp"

namespace leafgraph::tool {

// Any bytes can be read, also those of a block that is not sound: where there is no
// byte, it reads a 0.
class Fields {
public:
    explicit Fields(Bytes block) : block_(block) {}

    std::size_t size() const { return block_.size(); }

    unsigned number8(std::size_t at) const { return at < block_.size() ? block_.data()[at] : 0U; }
    unsigned number16(std::size_t at) const { return number8(at) + 256U * number8(at + 1); }

    std::int32_t signed32(std::size_t at) const {
        const std::uint32_t low = number16(at);
        const std::uint32_t high = number16(at + 2);
        return static_cast<std::int32_t>(low + 65536 * high);
    }

private:
    Bytes block_;
};

} // namespace leafgraph::tool

#endif // LEAFGRAPH_TOOL_FIELDS_HPP
