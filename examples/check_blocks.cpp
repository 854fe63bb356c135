// Asks the library about blocks, and says what is wrong and where: check_blocks FILE...
// The exit status is 1 if one of them is refused or can't be read, or if there is none.

#include "demo/graph.hpp"
#include "leafgraph.hpp"

#include <cstdio>
#include <exception>
#include <stdexcept>
#include <string>

namespace {

bool ends_with(const std::string &text, const std::string &end) {
    return text.size() >= end.size()
           && text.compare(text.size() - end.size(), end.size(), end) == 0;
}

leafgraph::Reply checked(const std::string &path, const demo::Block &block) {
    if (ends_with(path, ".lgt")) {
        return leafgraph::check_graph(block);
    }
    if (ends_with(path, ".lgr")) {
        return leafgraph::check_rule(block);
    }
    throw std::runtime_error(path + " is neither .lgt nor .lgr");
}

} // namespace

int main(int count, char **arguments) {
    bool sound = count > 1;
    try {
        for (int file = 1; file < count; file++) {
            const demo::Block block = demo::read_file(arguments[file]);
            const leafgraph::Reply reply = checked(arguments[file], block);
            const bool old = !reply && leafgraph::wants_import(block);
            std::printf("%s: %s%s\n", arguments[file], demo::in_words(reply, block).c_str(),
                        old ? " (version 1: it wants importing)" : "");
            sound = sound && reply.done();
        }
    } catch (const std::exception &fault) {
        std::printf("%s\n", fault.what());
        return 1;
    }
    return sound ? 0 : 1;
}
