#include "input.hpp"

#include <algorithm>
#include <cstddef>
#include <system_error>

#include <fcntl.h>
#include <unistd.h>

#include "blocks.hpp"
#include "descriptor.hpp"
#include "failure.hpp"
#include "text.hpp"

namespace leafgraph::tool {
namespace {

Input read_input(const std::string &path, std::size_t largest) {
    const std::size_t bound = largest + 1;
    const std::string name = path == "-" ? "standard input" : file_name(path);
    try {
        if (path == "-") {
            return {name, read_up_to(STDIN_FILENO, bound)};
        }
        const Descriptor file(::open(path.c_str(), O_RDONLY | O_CLOEXEC));
        return {name, read_up_to(file.number(), bound)};
    } catch (const std::system_error &error) {
        throw system_failure(name + ": can't read", error);
    }
}

} // namespace

Input read_graph_file(const std::string &path) {
    return read_input(path, largest_graph_block);
}

Input read_rule_file(const std::string &path) {
    return read_input(path, largest_rule_block);
}

Input read_any_file(const std::string &path) {
    return read_input(path, std::max(largest_graph_block, largest_rule_block));
}

Input read_text_file(const std::string &path) {
    return read_input(path, listing_room());
}

bool starts_with(const Input &input, const std::string &mark) {
    return input.bytes.size() >= mark.size()
           && std::equal(mark.begin(), mark.end(), input.bytes.begin());
}

} // namespace leafgraph::tool
