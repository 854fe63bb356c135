// What the tests in C++ share: they count what does not hold and what they have seen.
#ifndef LEAFGRAPH_TOOL_TESTS_EXPECTATIONS_HPP
#define LEAFGRAPH_TOOL_TESTS_EXPECTATIONS_HPP

#include <cstdint>
#include <cstdio>
#include <exception>
#include <fstream>
#include <initializer_list>
#include <iterator>
#include <map>
#include <string>
#include <vector>

namespace leafgraph::tool {

using Block = std::vector<std::uint8_t>;

inline int failures = 0;
inline std::map<std::string, int> seen; // kinds of answers, and how often

inline void expect(bool holds, const std::string &what) {
    if (!holds && ++failures <= 10) {
        std::printf("does not hold: %s\n", what.c_str());
    }
}

// A test that has not met what it is about shows nothing.
inline void expect_seen(std::initializer_list<const char *> kinds) {
    for (const char *kind : kinds) {
        expect(seen[kind] > 0, std::string("seen: ") + kind);
    }
}

inline Block read_file(const char *name) {
    std::ifstream file(name, std::ios::binary);
    return Block(std::istreambuf_iterator<char>(file), {});
}

// Runs a test, and prints under its name what it has seen and how much of it failed. Returns
// the exit status.
template <class Test>
int run_test(const char *name, Test test) {
    try {
        test();
    } catch (const std::exception &error) {
        expect(false, error.what());
    }
    for (const auto &[kind, times] : seen) {
        std::printf("%s: %s, %d times\n", name, kind.c_str(), times);
    }
    std::printf("%s: %d failed\n", name, failures);
    return failures == 0 ? 0 : 1;
}

} // namespace leafgraph::tool

#endif // LEAFGRAPH_TOOL_TESTS_EXPECTATIONS_HPP
