// leafgraph for C++17: the functions of leafgraph.h over views of bytes.
//
// What this adds to the C header, at no cost but a few comparisons a call:
//
// - Buffers are anything with data() and size() over bytes (std::vector,
//   std::array, std::span), an array of bytes, or a pointer and a length.
// - A null pointer with length 0 becomes an empty buffer, which the C header
//   does not take.
// - A null pointer with any other length, and buffers that overlap, are refused
//   before the library is called: no byte is read or written then.
// - A reply is a type of its own, with its number, its place, its value and a text;
//   and place_in says what the place of a refused block counts.
// - What is_read_elsewhere says is a type of its own, too (Answer), in which a refusal
//   is neither a yes nor a no.
// - The numbers of a map and of a list of moves are read by index (Map, Moves), and so
//   are the counts that a graph block stores (stored_count).
// - wants_import says whether a block is one of version 1, for import_graph.
// - A listing is a std::string_view of the bytes that were lent for it, or is assigned to
//   a std::string; and graph_length says how many bytes the graph of one wants.
//
// Nothing here throws, allocates or keeps state, except assign_listing, which needs memory
// for a string. What leafgraph.h says about threads and stack holds here too.
#ifndef LEAFGRAPH_HPP
#define LEAFGRAPH_HPP

#if defined(_MSVC_LANG) ? _MSVC_LANG < 201703L : __cplusplus < 201703L
#error "leafgraph.hpp needs C++17; leafgraph.h does not"
#endif

#include "leafgraph.h"

#include <array>
#include <cstddef>
#include <cstdint>
#include <string>
#include <string_view>
#include <type_traits>
#include <utility>

namespace leafgraph {

// What a call says. Numbers up to 255 are the library's; those from 256 on are
// given by this header, before the library is called.
enum class Code : std::uint16_t {
    done = LG_DONE,
    bad_map_length = LG_BAD_MAP_LENGTH,
    bad_graph_header = LG_BAD_GRAPH_HEADER,
    bad_graph_record = LG_BAD_GRAPH_RECORD,
    bad_graph_name = LG_BAD_GRAPH_NAME,
    graph_has_cycle = LG_GRAPH_HAS_CYCLE,
    bad_graph_count = LG_BAD_GRAPH_COUNT,
    bad_rule_header = LG_BAD_RULE_HEADER,
    bad_rule_record = LG_BAD_RULE_RECORD,
    bad_rule_order = LG_BAD_RULE_ORDER,
    bad_rule_outputs = LG_BAD_RULE_OUTPUTS,
    bad_rule_expression = LG_BAD_RULE_EXPRESSION,
    bad_moves_length = LG_BAD_MOVES_LENGTH,
    not_a_match = LG_NOT_A_MATCH,
    no_such_vertex = LG_NO_SUCH_VERTEX,
    short_text = LG_SHORT_TEXT,
    not_a_listing = LG_NOT_A_LISTING,
    unsound_graph = LG_UNSOUND_GRAPH,
    bad_buffer_length = LG_BAD_BUFFER_LENGTH,
    no_match = LG_NO_MATCH,
    no_result = LG_NO_RESULT,
    no_room = LG_NO_ROOM,
    cycle = LG_CYCLE,
    overlap = 256,
    null_buffer = 257
};

// The code in words, for a message. Never null.
constexpr const char *what(Code code) noexcept {
    switch (code) {
    case Code::done:
        return "done";
    case Code::bad_map_length:
        return "the map buffer is not 32 bytes";
    case Code::bad_graph_header:
        return "bad graph block: its length or its header";
    case Code::bad_graph_record:
        return "bad graph block: a record does not suit its kind";
    case Code::bad_graph_name:
        return "bad graph block: an input or an output names no vertex";
    case Code::graph_has_cycle:
        return "bad graph block: it has a cycle";
    case Code::bad_graph_count:
        return "bad graph block: a stored count is not the true one";
    case Code::bad_rule_header:
        return "bad rule block: its length or its header";
    case Code::bad_rule_record:
        return "bad rule block: a record, or an input place of one";
    case Code::bad_rule_order:
        return "bad rule block: its vertices are not in visiting order";
    case Code::bad_rule_outputs:
        return "bad rule block: its outputs, its connection, or a vertex that nothing names";
    case Code::bad_rule_expression:
        return "bad rule block: an expression, or the use of one";
    case Code::bad_moves_length:
        return "the list of moves is not two bytes for each slot";
    case Code::not_a_match:
        return "the map is no match of the rule in the graph";
    case Code::no_such_vertex:
        return "no source vertex of that number, or a rule input";
    case Code::short_text:
        return "the text buffer is shorter than the listing";
    case Code::not_a_listing:
        return "the text is no listing";
    case Code::unsound_graph:
        return "the listing's graph is not sound";
    case Code::bad_buffer_length:
        return "the graph buffer has not the length that the listing's graph wants";
    case Code::no_match:
        return "no match from the start number on";
    case Code::no_result:
        return "a target attribute has no result, or a projection's index is below 1";
    case Code::no_room:
        return "more target vertices than Empty slots and removed ones";
    case Code::cycle:
        return "the graph so made would have a cycle";
    case Code::overlap:
        return "buffers overlap";
    case Code::null_buffer:
        return "a null pointer with a length that is not 0";
    }
    return "a reply that this header does not know";
}

// What a call returns: done, with a value where the call has one to give, or a refusal with
// its number and place.
class [[nodiscard]] Reply {
public:
    // A reply of the library.
    explicit constexpr Reply(std::uint64_t packed) noexcept
        : code_(static_cast<Code>(packed & 0xff)),
          place_(static_cast<std::uint32_t>((packed >> 8) & 0xffffffff)),
          value_(static_cast<std::uint32_t>(packed >> 40)) {}

    // A refusal of this header.
    explicit constexpr Reply(Code code) noexcept : code_(code), place_(0), value_(0) {}

    constexpr bool done() const noexcept { return code_ == Code::done; }
    explicit constexpr operator bool() const noexcept { return done(); }

    constexpr Code code() const noexcept { return code_; }
    constexpr unsigned number() const noexcept { return static_cast<unsigned>(code_); }
    constexpr const char *what() const noexcept { return leafgraph::what(code_); }

    // Whether it is about the graph block, or about the rule block: whatever kind of
    // fault it has, those included that a later version tells apart. A listing is no
    // block: of one that is refused, both are false.
    constexpr bool bad_graph() const noexcept { return number() / 10 == 2; }
    constexpr bool bad_rule() const noexcept { return number() / 10 == 3; }

    // The place that a refusal names, as the library gives it: a slot, an output, a
    // vertex, a node or a byte of a text, see leafgraph.h at each number; else 0. place_in
    // says which.
    constexpr std::uint32_t place() const noexcept { return place_; }

    // The value beside it, see lg_reply_value; 0 where there is none, as with a refusal.
    constexpr std::uint32_t value() const noexcept { return value_; }

    friend constexpr bool operator==(Reply left, Reply right) noexcept {
        return left.code_ == right.code_ && left.place_ == right.place_
               && left.value_ == right.value_;
    }
    friend constexpr bool operator!=(Reply left, Reply right) noexcept {
        return !(left == right);
    }

private:
    Code code_;
    std::uint32_t place_;
    std::uint32_t value_;
};

// What is_read_elsewhere returns. After a refusal yes() and no() are both false, so that
// nobody takes a refusal for a no, and lets something go that is read elsewhere. For the
// same reason it is no condition by itself: that could mean done as well as yes.
struct [[nodiscard]] Answer {
    Reply reply;

    constexpr bool done() const noexcept { return reply.done(); }
    constexpr bool yes() const noexcept { return done() && reply.value() == 1; }
    constexpr bool no() const noexcept { return done() && reply.value() == 0; }
};

namespace detail {

// A type whose object is one byte of a block.
template <class Element>
inline constexpr bool is_byte = std::is_same_v<std::remove_cv_t<Element>, unsigned char>
                                || std::is_same_v<std::remove_cv_t<Element>, char>
                                || std::is_same_v<std::remove_cv_t<Element>, std::byte>;

template <class Container>
using element_of = std::remove_pointer_t<decltype(std::declval<Container &>().data())>;

template <class Container, class = void>
inline constexpr bool has_bytes = false;
template <class Container>
inline constexpr bool has_bytes<Container, std::void_t<element_of<Container>,
                                                       decltype(std::declval<Container &>().size())>>
    = is_byte<element_of<Container>>;

template <class Container, class = void>
inline constexpr bool has_writable_bytes = false;
template <class Container>
inline constexpr bool has_writable_bytes<Container, std::enable_if_t<has_bytes<Container>>>
    = !std::is_const_v<element_of<Container>>;

} // namespace detail

// Bytes that a call only reads. It refers to them and does not own them.
class Bytes {
public:
    constexpr Bytes() noexcept = default;
    Bytes(const void *data, std::size_t size) noexcept
        : data_(static_cast<const std::uint8_t *>(data)), size_(size) {}

    template <std::size_t size>
    Bytes(const std::uint8_t (&array)[size]) noexcept : Bytes(array, size) {}
    template <std::size_t size>
    Bytes(const std::byte (&array)[size]) noexcept : Bytes(array, size) {}
    template <class Container, class = std::enable_if_t<detail::has_bytes<const Container>>>
    Bytes(const Container &container) noexcept : Bytes(container.data(), container.size()) {}

    const std::uint8_t *data() const noexcept { return data_; }
    std::size_t size() const noexcept { return size_; }

private:
    const std::uint8_t *data_ = nullptr;
    std::size_t size_ = 0;
};

// Bytes that a call may write. It refers to them and does not own them.
class WritableBytes {
public:
    constexpr WritableBytes() noexcept = default;
    WritableBytes(void *data, std::size_t size) noexcept
        : data_(static_cast<std::uint8_t *>(data)), size_(size) {}

    template <std::size_t size>
    WritableBytes(std::uint8_t (&array)[size]) noexcept : WritableBytes(array, size) {}
    template <std::size_t size>
    WritableBytes(std::byte (&array)[size]) noexcept : WritableBytes(array, size) {}
    // A temporary is taken only where it is a view, which is what a const one
    // lends too: a vector that dies with the call would lose what was written.
    template <class Container, class = std::enable_if_t<detail::has_writable_bytes<Container>>>
    WritableBytes(Container &container) noexcept
        : WritableBytes(container.data(), container.size()) {}
    template <class View, class = std::enable_if_t<detail::has_writable_bytes<const View>>>
    WritableBytes(const View &view) noexcept : WritableBytes(view.data(), view.size()) {}

    std::uint8_t *data() const noexcept { return data_; }
    std::size_t size() const noexcept { return size_; }

private:
    std::uint8_t *data_ = nullptr;
    std::size_t size_ = 0;
};

namespace detail {

inline bool is_null(Bytes bytes) noexcept {
    return bytes.data() == nullptr && bytes.size() != 0;
}

// Any block can be looked at: where it has no byte, there is a 0.
inline unsigned byte_at(Bytes block, std::size_t at) noexcept {
    return at < block.size() ? block.data()[at] : 0U;
}

inline unsigned number16_at(Bytes block, std::size_t at) noexcept {
    return byte_at(block, at) + 256U * byte_at(block, at + 1);
}

// Where the record of this slot of a graph begins: each has 48 bytes, the header 24.
constexpr std::size_t record_at(std::size_t slot) noexcept {
    return 24 + 48 * slot;
}

// The slot in this place of a list of slot numbers; past its end, none.
inline std::uint16_t slot_in(Bytes list, std::size_t place) noexcept {
    const bool there = place < list.size() / 2;
    return static_cast<std::uint16_t>(there ? number16_at(list, 2 * place)
                                            : unsigned{LG_NO_SLOT});
}

} // namespace detail

// A match as the library writes it: the slot of each source vertex.
class Map {
public:
    // Stands from the rule's number of source vertices on.
    static constexpr std::uint16_t no_slot = LG_NO_SLOT;

    // A map in which no vertex has a slot yet.
    Map() noexcept { bytes_.fill(no_slot % 256); }

    // How many numbers a map has.
    static constexpr std::size_t places() noexcept { return LG_MAP_LENGTH / 2; }

    // The slot that this source vertex matches, after a call that is done; no_slot past
    // the last one, and everywhere before such a call.
    std::uint16_t operator[](std::size_t vertex) const noexcept {
        return detail::slot_in(bytes_, vertex);
    }

    std::uint8_t *data() noexcept { return bytes_.data(); }
    const std::uint8_t *data() const noexcept { return bytes_.data(); }
    static constexpr std::size_t size() noexcept { return LG_MAP_LENGTH; }

private:
    std::array<std::uint8_t, LG_MAP_LENGTH> bytes_;
};

// Where a squeeze has put each slot's vertex. It refers to the list that was lent, and
// does not own it: it is good as long as those bytes are.
class Moves {
public:
    // Stands for a slot that was Empty.
    static constexpr std::uint16_t no_slot = LG_NO_SLOT;

    // Of no slot at all.
    constexpr Moves() noexcept = default;
    // Over a list as lg_squeeze writes it. Null is a list of no slot.
    explicit Moves(Bytes list) noexcept : list_(detail::is_null(list) ? Bytes() : list) {}

    // How many slots it tells of: all that the graph has.
    std::size_t size() const noexcept { return list_.size() / 2; }

    // The slot to which the vertex went that was in this one; no_slot if this one was
    // Empty, and past the last one.
    std::uint16_t operator[](std::size_t slot) const noexcept {
        return detail::slot_in(list_, slot);
    }

    // Whether there was no vertex in this slot to go anywhere.
    bool was_empty(std::size_t slot) const noexcept { return (*this)[slot] == no_slot; }

private:
    Bytes list_;
};

// What write_listing returns.
struct [[nodiscard]] Listed {
    Reply reply;
    std::string_view text; // the listing, in the lent bytes, where the reply is done; else empty

    // In bytes: those of the lent buffer from here on are as they came.
    constexpr std::size_t length() const noexcept { return text.size(); }
    constexpr bool done() const noexcept { return reply.done(); }
    explicit constexpr operator bool() const noexcept { return done(); }
};

// What squeeze returns.
struct [[nodiscard]] Squeezed {
    Reply reply;
    Moves moves; // of the lent list where the reply is done, else of no slot

    bool done() const noexcept { return reply.done(); }
    explicit operator bool() const noexcept { return done(); }
};

namespace detail {

// Whether some byte lies in both. Empty buffers have none.
inline bool overlap(Bytes one, Bytes other) noexcept {
    const auto first = reinterpret_cast<std::uintptr_t>(one.data());
    const auto second = reinterpret_cast<std::uintptr_t>(other.data());
    if (one.size() == 0 || other.size() == 0) {
        return false;
    }
    return first <= second ? second - first < one.size() : first - second < other.size();
}

// The same bytes, with some address where an empty buffer has null: nothing is read
// or written there. It is a literal's, since under g++ a variable of this header whose
// address is taken would keep a plugin that includes it from being unloaded.
inline Bytes lent(Bytes bytes) noexcept {
    return bytes.data() == nullptr ? Bytes("", 0) : bytes;
}

inline WritableBytes lent(WritableBytes bytes) noexcept {
    return bytes.data() == nullptr ? WritableBytes(const_cast<char *>(""), 0) : bytes;
}

// Why the library must not be called with these buffers; done if it may. A buffer that
// a call does not have is an empty one here.
inline Code judged(Bytes one, Bytes other = {}, Bytes third = {}) noexcept {
    if (is_null(one) || is_null(other) || is_null(third)) {
        return Code::null_buffer;
    }
    const bool apart = !overlap(one, other) && !overlap(one, third) && !overlap(other, third);
    return apart ? Code::done : Code::overlap;
}

} // namespace detail

// As lg_check_graph.
inline Reply check_graph(Bytes graph) noexcept {
    if (detail::is_null(graph)) {
        return Reply(Code::null_buffer);
    }
    graph = detail::lent(graph);
    return Reply(lg_check_graph(graph.data(), graph.size()));
}

// As lg_check_rule.
inline Reply check_rule(Bytes rule) noexcept {
    if (detail::is_null(rule)) {
        return Reply(Code::null_buffer);
    }
    rule = detail::lent(rule);
    return Reply(lg_check_rule(rule.data(), rule.size()));
}

// As lg_find_match: where done, the map tells the least match from start on.
inline Reply find_match(Bytes graph, Bytes rule, std::size_t start, WritableBytes map) noexcept {
    const Code code = detail::judged(graph, rule, map);
    if (code != Code::done) {
        return Reply(code);
    }
    graph = detail::lent(graph);
    rule = detail::lent(rule);
    map = detail::lent(map);
    return Reply(lg_find_match(graph.data(), graph.size(), rule.data(), rule.size(), start,
                               map.data(), map.size()));
}

// As lg_is_read_elsewhere: whether what this source vertex matches is a graph output, or is
// read by something other than what the source vertices match that are no rule inputs. The
// map is a Map, or any other buffer with a match.
inline Answer is_read_elsewhere(Bytes graph, Bytes rule, Bytes map, std::size_t vertex) noexcept {
    const Code code = detail::judged(graph, rule, map);
    if (code != Code::done) {
        return {Reply(code)};
    }
    graph = detail::lent(graph);
    rule = detail::lent(rule);
    map = detail::lent(map);
    return {Reply(lg_is_read_elsewhere(graph.data(), graph.size(), rule.data(), rule.size(),
                                       map.data(), map.size(), vertex))};
}

// As lg_rewrite: where done, graph holds the new block, and the map tells where
// the old one matched; a Const of the map may have stayed. On a refusal no byte
// has changed.
inline Reply rewrite(WritableBytes graph, Bytes rule, std::size_t start,
                     WritableBytes map) noexcept {
    const Code code = detail::judged(graph, rule, map);
    if (code != Code::done) {
        return Reply(code);
    }
    graph = detail::lent(graph);
    rule = detail::lent(rule);
    map = detail::lent(map);
    return Reply(lg_rewrite(graph.data(), graph.size(), rule.data(), rule.size(), start,
                            map.data(), map.size()));
}

// As lg_sweep: where done, every vertex that no output needs is gone, but for Variables.
inline Reply sweep(WritableBytes graph) noexcept {
    if (detail::is_null(graph)) {
        return Reply(Code::null_buffer);
    }
    graph = detail::lent(graph);
    return Reply(lg_sweep(graph.data(), graph.size()));
}

// How many bytes squeeze wants for its list with this graph: two for each slot of which
// the header speaks. Of a graph that is not sound it says nothing of use.
inline std::size_t moves_length(Bytes graph) noexcept {
    return detail::is_null(graph) ? 0 : std::size_t{2} * detail::number16_at(graph, 6);
}

// As lg_squeeze: where done, the vertices of graph stand in its lowest slots, and the
// moves are a view of the bytes that were written to the list. On a refusal no byte
// has changed.
inline Squeezed squeeze(WritableBytes graph, WritableBytes list) noexcept {
    const Code code = detail::judged(graph, list);
    if (code != Code::done) {
        return {Reply(code), Moves()};
    }
    graph = detail::lent(graph);
    list = detail::lent(list);
    const Reply reply(lg_squeeze(graph.data(), graph.size(), list.data(), list.size()));
    return {reply, reply.done() ? Moves(list) : Moves()};
}

// As lg_import: where done, the block of version 1 is one of version 2, with counts. On a
// refusal no byte has changed. (import alone is a word of C++20.)
inline Reply import_graph(WritableBytes graph) noexcept {
    if (detail::is_null(graph)) {
        return Reply(Code::null_buffer);
    }
    graph = detail::lent(graph);
    return Reply(lg_import(graph.data(), graph.size()));
}

// Whether these bytes are what import_graph is for: mark, version and length are those of
// a graph block of version 1. Of one with other faults import_graph says which.
inline bool wants_import(Bytes graph) noexcept {
    return !detail::is_null(graph) && detail::byte_at(graph, 0) == 'L'
           && detail::byte_at(graph, 1) == 'G' && detail::byte_at(graph, 2) == 'T'
           && detail::number16_at(graph, 4) == LG_VERSION_TO_IMPORT
           && graph.size() == detail::record_at(detail::number16_at(graph, 6));
}

// How many bytes are room for the listing of any graph.
constexpr std::size_t listing_room() noexcept {
    return LG_LISTING_ROOM;
}

// As lg_write_listing: where done, the listing stands at the beginning of the text buffer,
// and the rest of it is as it came. On a refusal no byte has changed.
inline Listed write_listing(Bytes graph, WritableBytes text) noexcept {
    const Code code = detail::judged(graph, text);
    if (code != Code::done) {
        return {Reply(code), {}};
    }
    graph = detail::lent(graph);
    text = detail::lent(text);
    const Reply reply(lg_write_listing(graph.data(), graph.size(), text.data(), text.size()));
    const std::size_t length = reply.done() ? reply.value() : 0;
    return {reply, {reinterpret_cast<const char *>(text.data()), length}};
}

// The same into a string of its own length: where done, the string is the listing; on a
// refusal it is as it was. Throws what std::string throws where there is no memory; then,
// too, it is as it was.
inline Reply assign_listing(Bytes graph, std::string &text) {
    std::string room(listing_room(), '\0');
    const Listed listed = write_listing(graph, room);
    if (listed) {
        text.assign(listed.text);
    }
    return listed.reply;
}

// How many bytes read_listing wants for the graph of this text: 24 + 48 N, for the N of
// which its first line speaks. It looks at that line alone and judges nothing: of a text
// that is no listing it says nothing of use, but never more than 24600, and read_listing
// refuses that text whatever is lent. 0 where the text does not begin with `graph ` and a
// number from 1 to 512.
inline std::size_t graph_length(Bytes text) noexcept {
    constexpr std::size_t first_digit = 6, most_slots = 512;
    std::size_t slots = 0, at = 0;
    if (detail::is_null(text)) {
        return 0;
    }
    for (; at < first_digit; ++at) {
        if (detail::byte_at(text, at) != static_cast<unsigned char>("graph "[at])) {
            return 0;
        }
    }
    for (; slots <= most_slots; ++at) {
        const unsigned digit = detail::byte_at(text, at) - unsigned{'0'};
        if (digit > 9) {
            break;
        }
        slots = 10 * slots + digit;
    }
    return slots >= 1 && slots <= most_slots ? detail::record_at(slots) : 0;
}

// As lg_read_listing: where done, graph holds the block, whatever it held before. On a
// refusal no byte has changed.
inline Reply read_listing(Bytes text, WritableBytes graph) noexcept {
    const Code code = detail::judged(text, graph);
    if (code != Code::done) {
        return Reply(code);
    }
    text = detail::lent(text);
    graph = detail::lent(graph);
    return Reply(lg_read_listing(text.data(), text.size(), graph.data(), graph.size()));
}

// How many input places and graph outputs name this slot, as the block itself says; 0
// past its last slot. Of a graph that is not sound it says nothing of use.
inline std::uint16_t stored_count(Bytes graph, std::size_t slot) noexcept {
    const bool there = !detail::is_null(graph) && slot < detail::number16_at(graph, 6);
    return static_cast<std::uint16_t>(
        there ? detail::number16_at(graph, detail::record_at(slot) + 40) : 0U);
}

// What a place is a number of.
enum class PlaceKind {
    none, // the reply names no place
    slot,
    output, // of the graph, 0 to 3
    source_vertex,
    target_vertex,
    node,     // of an expression
    text_byte // of a text that is read, counted from 0; its length, if it ends too early
};

// The kind in a word or two, for a message. Never null.
constexpr const char *what(PlaceKind kind) noexcept {
    switch (kind) {
    case PlaceKind::none:
        return "no place";
    case PlaceKind::slot:
        return "slot";
    case PlaceKind::output:
        return "output";
    case PlaceKind::source_vertex:
        return "source vertex";
    case PlaceKind::target_vertex:
        return "target vertex";
    case PlaceKind::node:
        return "node";
    case PlaceKind::text_byte:
        return "byte";
    }
    return "a kind of place that this header does not know";
}

// A place by itself: of which kind, and its number among those. Target vertices are
// counted by themselves here, where the reply counts them from S on.
struct Place {
    PlaceKind kind;
    std::uint32_t number;

    friend constexpr bool operator==(Place left, Place right) noexcept {
        return left.kind == right.kind && left.number == right.number;
    }
    friend constexpr bool operator!=(Place left, Place right) noexcept {
        return !(left == right);
    }
};

namespace detail {

// Whether some used input of this slot names no slot or an Empty one.
inline bool reads_no_vertex(Bytes graph, std::size_t slot) noexcept {
    const unsigned slots = number16_at(graph, 6);
    const std::size_t record = record_at(slot);
    const unsigned inputs = byte_at(graph, record + 2);
    for (std::size_t place = 0; place < inputs && place < 6; ++place) {
        const std::size_t named = number16_at(graph, record + 4 + 2 * place);
        if (named >= slots || byte_at(graph, record_at(named)) == 0) {
            return true;
        }
    }
    return false;
}

// Where the nodes of a rule begin.
inline std::size_t nodes_at(Bytes rule) noexcept {
    return 16 + std::size_t{16} * (byte_at(rule, 6) + byte_at(rule, 7));
}

// Whether a node may name this one as an operand: an earlier one that is not any.
inline bool is_operand(Bytes rule, unsigned operand, std::size_t node) noexcept {
    return operand < node && byte_at(rule, nodes_at(rule) + std::size_t{8} * operand) != 0;
}

// Whether the rule has this node and it is not well formed.
inline bool is_bad_node(Bytes rule, std::size_t node) noexcept {
    const std::size_t at = nodes_at(rule) + 8 * node;
    if (node >= byte_at(rule, 9)) {
        return false;
    }
    const unsigned form = byte_at(rule, at);
    const unsigned a = byte_at(rule, at + 1), b = byte_at(rule, at + 2);
    const bool number = number16_at(rule, at + 4) != 0 || number16_at(rule, at + 6) != 0;
    if (form > 7 || byte_at(rule, at + 3) != 0 || (form != 1 && number)) {
        return true;
    }
    if (form <= 1) { // any and constant name nothing
        return a != 0 || b != 0;
    }
    if (form == 2) { // attribute b of source vertex a
        return a >= byte_at(rule, 6) || b < 1 || b > 6;
    }
    return !is_operand(rule, a, node) || !is_operand(rule, b, node);
}

inline Place vertex_place(Bytes rule, std::uint32_t vertex) noexcept {
    const unsigned sources = byte_at(rule, 6);
    return vertex < sources ? Place{PlaceKind::source_vertex, vertex}
                            : Place{PlaceKind::target_vertex, vertex - sources};
}

} // namespace detail

// What the place of a reply counts, in the block that the reply is about: the graph
// where reply.bad_graph(), the rule where reply.bad_rule(), as it was at the call; and the
// text where it is not_a_listing.
//
// Number and place are the library's, and proved. This look at the bytes is tested, not
// proved; it never reads outside the block, whatever is in it. Of another block than
// the refused one it says nothing of use.
inline Place place_in(Reply reply, Bytes block) noexcept {
    const std::uint32_t place = reply.place();
    if (detail::is_null(block)) {
        return {PlaceKind::none, 0};
    }
    switch (reply.code()) {
    case Code::bad_graph_record:
    case Code::graph_has_cycle:
    case Code::bad_graph_count:
        return {PlaceKind::slot, place};
    case Code::bad_graph_name:
        // An output is given only where no slot at all has such an input.
        return {detail::reads_no_vertex(block, place) ? PlaceKind::slot : PlaceKind::output,
                place};
    case Code::bad_rule_record:
    case Code::bad_rule_order:
        return detail::vertex_place(block, place);
    case Code::bad_rule_expression:
        // A vertex is given only where no node at all is bad.
        return detail::is_bad_node(block, place) ? Place{PlaceKind::node, place}
                                                 : detail::vertex_place(block, place);
    case Code::not_a_listing:
        return {PlaceKind::text_byte, place};
    default:
        return {PlaceKind::none, 0};
    }
}

} // namespace leafgraph

#endif // LEAFGRAPH_HPP
