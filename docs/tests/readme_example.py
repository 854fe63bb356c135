#!/usr/bin/env python3
"""Writes the C++ example of README.md as a program that runs it.

    readme_example.py OUT.cpp

The program takes E1 and the rule RR as files; it fails if the example does not rewrite the one by
the other until no match is left, does not do the same with that graph as a block of version 1,
does not tidy a graph with a gap, does not make a text of it and the same block of the text, is
wrong about what only the match reads, or is content with a bad graph, with a cycle in one of either
version, with a bad text, or with a rule that always matches again. What the example says of those
is compared with readme_example.stdout (make/docs.mk).
"""

import re
import sys

AROUND = """
#include <fstream>
#include <iterator>

#include "host/blocks.hpp"

// A relu becomes a relu, so that there is always one more.
static blocks::Block endless_rule() {
    const blocks::Pattern any = {blocks::wildcard, blocks::none, {}, {}};
    const blocks::Pattern relu = {blocks::call, blocks::relu, {0}, {}};
    return blocks::rule({{any, relu}, {relu}, {1}, {blocks::made(0)}, {}});
}

// A Variable and a relu of it, behind an Empty slot and before a relu that no output needs.
static blocks::Block with_a_gap() {
    return blocks::graph({{blocks::empty, blocks::none, {}, {}},
                          {blocks::variable, blocks::none, {}, {1, 3, 8, 8, 1}},
                          {blocks::call, blocks::relu, {1}, {}},
                          {blocks::call, blocks::relu, {1}, {}}}, {2});
}

static std::vector<unsigned char> bytes_of(const char *name) {
    std::ifstream file(name, std::ios::binary);
    return std::vector<unsigned char>(std::istreambuf_iterator<char>(file), {});
}

int main(int count, char **names) {
    if (count != 3) return 2;
    std::vector<unsigned char> graph = bytes_of(names[1]);
    const std::vector<unsigned char> before = graph, rule = bytes_of(names[2]);
    if (!only_the_match_reads(graph, rule, 1)) return 1; // the inner relu
    for (const std::size_t vertex : {0, 2, 3}) { // a rule input, the output, and no vertex
        if (only_the_match_reads(graph, rule, vertex)) return 1;
    }
    if (!shorten(graph, rule) || graph == before || !leafgraph::check_graph(graph)) return 1;
    if (only_the_match_reads(graph, rule, 1)) return 1; // there is no match any more
    std::vector<unsigned char> old = before, old_cyclic;
    make_version_1(old.data());
    old_cyclic = old;
    if (!shorten(old, rule) || old != graph) return 1;
    std::vector<unsigned char> gap = with_a_gap();
    if (!shorten(gap, rule) || gap[24] != blocks::variable || gap[10] != 1) return 1;
    std::vector<unsigned char> bad = {1, 2, 3}, cyclic = before;
    cyclic[24 + 48 * 3 + 4] = old_cyclic[24 + 48 * 3 + 4] = 4; // slots 3 and 4 read each other
    if (shorten(bad, rule) || shorten(cyclic, rule) || shorten(old_cyclic, rule)) return 1;
    if (graph_of(listing(before)) != before || graph_of(listing(gap)) != gap) return 1;
    if (!listing(cyclic).empty() || !graph_of("graph 1\\n0 relu").empty()) return 1;
    if (!graph_of("graph 1\\nout 0\\n").empty()) return 1; // a listing, with nothing in its slot
    if (shorten(graph, endless_rule()) || !leafgraph::check_graph(graph)) return 1;
    std::printf("the example of README.md: as expected\\n");
    return 0;
}
"""


def main():
    if len(sys.argv) != 2:
        sys.exit(__doc__)
    with open("README.md", encoding="utf-8") as file:
        examples = re.findall(r"^```cpp\n(.*?)^```$", file.read(), re.MULTILINE | re.DOTALL)
    if len(examples) != 1:
        sys.exit(f"README.md has {len(examples)} examples in C++, not one")
    with open(sys.argv[1], "w", encoding="utf-8") as file:
        file.write(examples[0] + AROUND)


if __name__ == "__main__":
    main()
