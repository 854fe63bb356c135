#include "descriptor.hpp"

#include <algorithm>
#include <cerrno>
#include <system_error>

#include <unistd.h>

namespace leafgraph::tool {
namespace {

// A read or a write again and again while only a signal came between.
template <class Call>
std::size_t uninterrupted(Call call) {
    for (;;) {
        const ssize_t count = call();
        if (count >= 0) {
            return static_cast<std::size_t>(count);
        }
        if (errno != EINTR) {
            throw std::system_error(errno, std::generic_category());
        }
    }
}

} // namespace

int checked(int result) {
    if (result == -1) {
        throw std::system_error(errno, std::generic_category());
    }
    return result;
}

Descriptor::~Descriptor() {
    if (number_ != -1) {
        ::close(number_);
    }
}

void Descriptor::close() {
    const int number = number_;
    // Whatever close says, the number is not ours any more.
    number_ = -1;
    checked(::close(number));
}

std::vector<std::uint8_t> read_up_to(int descriptor, std::size_t bound) {
    constexpr std::size_t step = 65536;
    std::vector<std::uint8_t> bytes;
    while (bytes.size() < bound) {
        const std::size_t before = bytes.size();
        bytes.resize(before + std::min(step, bound - before));
        const std::size_t count = uninterrupted([&] {
            return ::read(descriptor, bytes.data() + before, bytes.size() - before);
        });
        bytes.resize(before + count);
        if (count == 0) {
            break;
        }
    }
    return bytes;
}

void write_all(int descriptor, Bytes bytes) {
    std::size_t written = 0;
    while (written < bytes.size()) {
        written += uninterrupted([&] {
            return ::write(descriptor, bytes.data() + written, bytes.size() - written);
        });
    }
}

} // namespace leafgraph::tool
