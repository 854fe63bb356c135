// A plain printer and parser of listings, for the benchmark to compare with: what one
// writes for a block that is known to be sound and a text that is known to be a listing.
// Neither judges what it is given beyond what keeps it within the bytes that are there:
// no graph is checked, and a number may have leading zeros or name anything.

#include <charconv>
#include <cstddef>
#include <cstdint>
#include <cstring>
#include <string_view>

namespace {

constexpr std::size_t header = 24, record = 48;
constexpr std::size_t most_slots = 512, most_outputs = 4, places = 6;
constexpr std::string_view words[] = {"", "const", "variable", "call", "tuple", "proj"};
constexpr int call = 3;

unsigned u16_at(const std::uint8_t *bytes) { return bytes[0] | unsigned{bytes[1]} << 8; }

// An input or an output.
std::int32_t name_at(const std::uint8_t *bytes) { return static_cast<std::int32_t>(u16_at(bytes)); }

std::int32_t i32_at(const std::uint8_t *bytes) {
    return static_cast<std::int32_t>(u16_at(bytes) | std::uint32_t{u16_at(bytes + 2)} << 16);
}

void put_u16(std::uint8_t *bytes, unsigned number) {
    bytes[0] = static_cast<std::uint8_t>(number);
    bytes[1] = static_cast<std::uint8_t>(number >> 8);
}

void put_i32(std::uint8_t *bytes, std::int32_t number) {
    const auto bits = static_cast<std::uint32_t>(number);
    put_u16(bytes, bits & 0xffff);
    put_u16(bytes + 2, bits >> 16);
}

// What has been printed, as far as there is room.
struct Printer {
    char *next, *end;
    bool fits = true;

    void put(std::string_view text) {
        fits = fits && text.size() <= static_cast<std::size_t>(end - next);
        if (fits) {
            std::memcpy(next, text.data(), text.size());
            next += text.size();
        }
    }

    void put(std::int32_t number) {
        const auto put = std::to_chars(next, end, number);
        fits = fits && put.ec == std::errc{};
        if (fits) next = put.ptr;
    }

    template <class At>
    void put_all(unsigned count, At at) {
        for (unsigned place = 0; place < count; ++place) {
            if (place > 0) put(" ");
            put(at(place));
        }
    }

    void put_slot(unsigned slot, const std::uint8_t *bytes) {
        put(static_cast<std::int32_t>(slot));
        put(" ");
        put(words[bytes[0]]);
        if (bytes[0] == call) {
            put(" ");
            put(std::int32_t{bytes[1]});
        }
        put(" [");
        put_all(bytes[2], [=](unsigned place) { return name_at(bytes + 4 + 2 * place); });
        put("] {");
        put_all(bytes[3], [=](unsigned place) { return i32_at(bytes + 16 + 4 * place); });
        put("}\n");
    }
};

// What is still to be read.
struct Parser {
    const char *next, *end;
    bool right = true;

    bool takes(std::string_view text) {
        const bool is_there = text.size() <= static_cast<std::size_t>(end - next) &&
                              std::memcmp(next, text.data(), text.size()) == 0;
        if (is_there) next += text.size();
        return is_there;
    }

    void take(std::string_view text) { right = right && takes(text); }

    std::int32_t number() {
        std::int32_t number = 0;
        const auto read = std::from_chars(next, end, number);
        right = right && read.ec == std::errc{};
        if (right) next = read.ptr;
        return number;
    }

    // Numbers up to what closes them; how many.
    template <class Put>
    unsigned numbers(std::string_view close, unsigned most, Put put) {
        unsigned count = 0;
        while (right && !takes(close)) {
            if (count == most) right = false;
            if (count > 0) take(" ");
            if (right) put(count++, number());
        }
        return count;
    }

    void slot(std::uint8_t *bytes) {
        take(" ");
        int kind = 1;
        while (kind < 6 && !takes(words[kind])) ++kind;
        right = right && kind < 6;
        bytes[0] = static_cast<std::uint8_t>(kind);
        if (kind == call) {
            take(" ");
            bytes[1] = static_cast<std::uint8_t>(number());
        }
        take(" [");
        const auto put_input = [=](unsigned place, std::int32_t input) {
            put_u16(bytes + 4 + 2 * place, static_cast<unsigned>(input));
        };
        bytes[2] = static_cast<std::uint8_t>(numbers("]", places, put_input));
        take(" {");
        const auto put_attribute = [=](unsigned place, std::int32_t attribute) {
            put_i32(bytes + 16 + 4 * place, attribute);
        };
        bytes[3] = static_cast<std::uint8_t>(numbers("}", places, put_attribute));
        take("\n");
    }
};

// A block of so many Empty slots.
void clear(std::uint8_t *graph, unsigned slots) {
    std::memset(graph, 0, header + record * slots);
    std::memcpy(graph, "LGT", 3);
    put_u16(graph + 4, 2);
    put_u16(graph + 6, slots);
    std::memset(graph + 10, 0xff, 2 * most_outputs);
    for (unsigned slot = 0; slot < slots; ++slot) {
        std::memset(graph + header + record * slot + 4, 0xff, 2 * places);
    }
}

void count(std::uint8_t *graph, unsigned slots, unsigned named) {
    if (named < slots) {
        std::uint8_t *place = graph + header + record * named + 40;
        put_u16(place, u16_at(place) + 1);
    }
}

void count_all(std::uint8_t *graph, unsigned slots) {
    for (unsigned slot = 0; slot < slots; ++slot) {
        const std::uint8_t *bytes = graph + header + record * slot;
        for (unsigned place = 0; place < bytes[2]; ++place) {
            count(graph, slots, u16_at(bytes + 4 + 2 * place));
        }
    }
    for (unsigned place = 0; place < u16_at(graph + 8); ++place) {
        count(graph, slots, u16_at(graph + 10 + 2 * place));
    }
}

}  // namespace

// The listing's length; 0 where there is no room.
extern "C" std::size_t plain_write_listing(const std::uint8_t *graph, char *text,
                                           std::size_t room) {
    Printer printer{text, text + room};
    const unsigned slots = u16_at(graph + 6);
    printer.put("graph ");
    printer.put(static_cast<std::int32_t>(slots));
    printer.put("\n");
    for (unsigned slot = 0; slot < slots; ++slot) {
        const std::uint8_t *bytes = graph + header + record * slot;
        if (bytes[0] != 0) printer.put_slot(slot, bytes);
    }
    printer.put("out ");
    const auto output_at = [=](unsigned place) { return name_at(graph + 10 + 2 * place); };
    printer.put_all(u16_at(graph + 8), output_at);
    printer.put("\n");
    return printer.fits ? static_cast<std::size_t>(printer.next - text) : 0;
}

// Whether the text was read.
extern "C" bool plain_read_listing(const char *text, std::size_t length, std::uint8_t *graph,
                                   std::size_t room) {
    Parser parser{text, text + length};
    parser.take("graph ");
    const auto slots = static_cast<unsigned>(parser.number());
    parser.take("\n");
    if (!parser.right || slots > most_slots || room != header + record * slots) return false;
    clear(graph, slots);
    while (parser.right && !parser.takes("out ")) {
        const auto slot = static_cast<unsigned>(parser.number());
        if (!parser.right || slot >= slots) return false;
        parser.slot(graph + header + record * slot);
    }
    const auto put_output = [=](unsigned place, std::int32_t output) {
        put_u16(graph + 10 + 2 * place, static_cast<unsigned>(output));
    };
    put_u16(graph + 8, parser.numbers("\n", most_outputs, put_output));
    count_all(graph, slots);
    return parser.right && parser.next == parser.end;
}
