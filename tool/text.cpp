#include "text.hpp"

namespace leafgraph::tool {

std::string counted(std::size_t count, const std::string &one, const std::string &many) {
    return std::to_string(count) + " " + (count == 1 ? one : many);
}

std::string numbered(const std::vector<unsigned> &numbers, const std::string &one,
                     const std::string &many) {
    std::string text = (numbers.size() == 1 ? one : many) + " ";
    for (std::size_t place = 0; place < numbers.size(); ++place) {
        const bool last = place + 1 == numbers.size();
        text += place == 0 ? "" : last ? " and " : ", ";
        text += std::to_string(numbers[place]);
    }
    return text;
}

std::string times(std::size_t count) {
    return count == 1 ? "once" : std::to_string(count) + " times";
}

std::string file_name(const std::string &path) {
    return path.empty() ? "''" : path;
}

std::string printable(const std::string &text) {
    std::string result = text;
    for (char &letter : result) {
        const auto byte = static_cast<unsigned char>(letter);
        if (byte < 32 || byte == 127) {
            letter = '?';
        }
    }
    return result;
}

} // namespace leafgraph::tool
