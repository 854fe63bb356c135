// Built against the installed package alone.

#include <leafgraph.hpp>

#include <cstdio>

int main() {
    const leafgraph::Reply reply = leafgraph::check_graph({nullptr, 0});
    std::printf("leafgraph %s from C++: %s\n", LEAFGRAPH_VERSION, reply.what());
    const bool squeezed = leafgraph::squeeze({nullptr, 0}, {nullptr, 0}).done();
    const bool imported = leafgraph::import_graph({nullptr, 0}).done();
    const leafgraph::Answer answer
        = leafgraph::is_read_elsewhere({nullptr, 0}, {nullptr, 0}, leafgraph::Map(), 0);
    const bool listed = leafgraph::write_listing({nullptr, 0}, {nullptr, 0}).done();
    const bool read = leafgraph::read_listing({nullptr, 0}, {nullptr, 0}).done();
    return reply.code() == leafgraph::Code::bad_graph_header && reply.bad_graph() && !squeezed
                   && !imported && !answer.yes() && !answer.no() && !listed && !read ? 0 : 1;
}
