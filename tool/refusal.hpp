// Refusals of the library, in words.
#ifndef LEAFGRAPH_TOOL_REFUSAL_HPP
#define LEAFGRAPH_TOOL_REFUSAL_HPP

#include <cstddef>
#include <string>

#include "input.hpp"
#include "leafgraph.hpp"

namespace leafgraph::tool {

// One line about a reply that isn't done. Where the reply is about one of the
// blocks, it names that file, the place in it, and what is wrong there.
std::string refusal_line(Reply reply, const Input &graph, const Input &rule);

// What to do with a file that begins as a listing does, where a block is wanted; else empty.
std::string listing_hint(const Input &input);

// Each throws the refusal, or that there is no match, unless the reply is done. With one
// input it is the reply of a call that takes no graph and rule together.
void want_done(Reply reply, const Input &graph, const Input &rule);
void want_done(Reply reply, const Input &block);
void want_imported(Reply reply, const Input &graph); // of an import, which takes version 1
void want_read(Reply reply, const Input &text);      // of the reading of a listing
// Of a question about this source vertex: where it is none to ask about, it says why.
void want_answered(Reply reply, const Input &graph, const Input &rule, std::size_t vertex);
void want_sound_graph(const Input &graph);
void want_sound_rule(const Input &rule);

} // namespace leafgraph::tool

#endif // LEAFGRAPH_TOOL_REFUSAL_HPP
