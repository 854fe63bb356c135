#include "text_fault.hpp"

#include <algorithm>
#include <array>
#include <iterator>

namespace leafgraph::tool {
namespace {

constexpr std::size_t longest_word = 16; // more letters than any word of a listing has

// Whether the library takes this byte behind the beginning of a listing.
bool can_follow(const std::string &begun, char byte) {
    const Reply reply = read_listing(begun + byte, WritableBytes());
    return reply.code() != Code::not_a_listing || reply.place() != begun.size();
}

// The words, or ends of words, that can stand behind the beginning of a listing; an empty one
// if no letter can.
std::vector<std::string> next_words(const std::string &begun, std::size_t most = longest_word) {
    std::vector<std::string> words;
    for (char letter = 'a'; most > 0 && letter <= 'z'; ++letter) {
        if (can_follow(begun, letter)) {
            for (const std::string &rest : next_words(begun + letter, most - 1)) {
                words.push_back(letter + rest);
            }
        }
    }
    return words.empty() ? std::vector<std::string>{""} : words;
}

bool is_digit(unsigned char byte) {
    return byte >= '0' && byte <= '9';
}

bool is_letter(unsigned char byte) {
    return byte >= 'a' && byte <= 'z';
}

std::string quoted(const std::string &text) {
    return "'" + text + "'";
}

// A byte in words: "'x'", "a space", "0xff".
std::string byte_words(unsigned char byte) {
    constexpr std::array digits = {'0', '1', '2', '3', '4', '5', '6', '7',
                                   '8', '9', 'a', 'b', 'c', 'd', 'e', 'f'};
    switch (byte) {
    case '\n':
        return "a line end";
    case '\r':
        return "a carriage return";
    case '\t':
        return "a tab";
    case ' ':
        return "a space";
    default:
        return byte > ' ' && byte < 127
                   ? quoted(std::string(1, static_cast<char>(byte)))
                   : std::string("0x") + digits.at(byte / 16) + digits.at(byte % 16);
    }
}

// Digits that follow each other: "a digit", "a digit from 2 to 5".
std::string digits_words(unsigned char first, unsigned char last) {
    return first == '0' && last == '9' ? "a digit"
                                       : std::string("a digit from ") + static_cast<char>(first)
                                             + " to " + static_cast<char>(last);
}

// How many digits follow each other from this byte on.
std::size_t digits_from(const std::vector<unsigned char> &bytes, std::size_t at) {
    std::size_t count = 0;
    while (at + count < bytes.size() && is_digit(bytes[at + count])
           && bytes[at + count] == bytes[at] + count) {
        ++count;
    }
    return count;
}

// What can stand behind the beginning of a listing, each in words. Three digits and more that
// follow each other are told as one, and letters by the words that they begin.
std::vector<std::string> wanted_words(const std::string &begun) {
    const std::vector<unsigned char> bytes = next_bytes(begun);
    std::vector<std::string> wanted;
    for (std::size_t at = 0; at < bytes.size(); ++at) {
        const std::size_t digits = digits_from(bytes, at);
        if (digits >= 3) {
            wanted.push_back(digits_words(bytes[at], bytes[at + digits - 1]));
            at += digits - 1;
        } else if (!is_letter(bytes[at])) {
            wanted.push_back(byte_words(bytes[at]));
        }
    }
    for (const std::string &word : next_words(begun)) {
        if (!word.empty()) {
            wanted.push_back(quoted(word));
        }
    }
    return wanted;
}

// "a digit, a space or a line end".
std::string joined(const std::vector<std::string> &alternatives) {
    std::string text;
    for (std::size_t at = 0; at < alternatives.size(); ++at) {
        text += at == 0 ? "" : at + 1 == alternatives.size() ? " or " : ", ";
        text += alternatives[at];
    }
    return text;
}

} // namespace

LineAndColumn place_of(Bytes text, std::size_t at) {
    const std::uint8_t *const begin = text.data(), *const here = begin + std::min(at, text.size());
    const auto reversed = std::make_reverse_iterator(here);
    const auto line_end = std::find(reversed, std::make_reverse_iterator(begin), '\n');
    return {1 + static_cast<std::size_t>(std::count(begin, here, '\n')),
            1 + static_cast<std::size_t>(line_end - reversed)};
}

std::vector<unsigned char> next_bytes(const std::string &begun) {
    std::vector<unsigned char> bytes;
    for (unsigned byte = 0; byte < 256; ++byte) {
        if (can_follow(begun, static_cast<char>(byte))) {
            bytes.push_back(static_cast<unsigned char>(byte));
        }
    }
    return bytes;
}

Fault text_fault(Bytes text, std::size_t place) {
    const std::size_t at = std::min(place, text.size());
    const auto [line, column] = place_of(text, at);
    const std::vector<std::string> wanted
        = wanted_words(std::string(text.data(), text.data() + at));
    const std::string stands
        = at < text.size() ? byte_words(text.data()[at]) + " stands here" : "the text ends here";
    return "line " + std::to_string(line) + ", column " + std::to_string(column) + " (byte "
           + std::to_string(at) + "): " + stands
           + (wanted.empty() ? ", behind the listing's end" : ", " + joined(wanted) + " wanted");
}

} // namespace leafgraph::tool
