#include "command_line.hpp"

#include <algorithm>
#include <charconv>
#include <limits>
#include <map>

#include "failure.hpp"
#include "output.hpp"

namespace leafgraph::tool {
namespace {

struct CommandForm {
    std::string name;
    Command command;
    std::vector<std::string> files; // their names in messages
    std::size_t least_files;
    std::vector<std::string> options;
    bool takes_vertex = false; // its number stands after the files
};

const std::vector<CommandForm> command_forms = {
    {"check", Command::check, {"GRAPH"}, 1, {}},
    {"check-rule", Command::check_rule, {"RULE"}, 1, {}},
    {"match", Command::match, {"GRAPH", "RULE"}, 2, {"--start"}},
    {"read-elsewhere", Command::read_elsewhere, {"GRAPH", "RULE"}, 2, {"--start"}, true},
    {"rewrite", Command::rewrite, {"GRAPH", "RULE"}, 2,
     {"--start", "-o", "--all", "--max", "--sweep", "--squeeze", "--moves", "--numbers",
      "--counts"}},
    {"sweep", Command::sweep, {"GRAPH"}, 1, {"-o", "--numbers", "--counts"}},
    {"squeeze", Command::squeeze, {"GRAPH"}, 1, {"-o", "--moves", "--numbers", "--counts"}},
    {"import", Command::import_graph, {"GRAPH"}, 1, {"-o", "--numbers", "--counts"}},
    {"read", Command::read_text, {"TEXT"}, 1, {"-o", "--numbers", "--counts"}},
    {"show", Command::show, {"FILE"}, 1, {"--numbers", "--counts"}},
    {"dot", Command::dot, {"GRAPH", "RULE"}, 1, {"--start", "--svg", "-o"}},
};

// What stands after an option, in words. The other options are by themselves.
const std::map<std::string, std::string> option_values = {
    {"--start", "a number"},
    {"--max", "a number"},
    {"-o", "a file"},
    {"--moves", "a file"},
};

// A command, and the words after it told apart.
struct SortedWords {
    const CommandForm &form;
    std::vector<std::string> files;
    std::map<std::string, std::string> options; // with their values
    std::optional<std::string> vertex;

    bool has(const std::string &option) const { return options.count(option) != 0; }

    // The value of an option, if it is given.
    std::optional<std::string> value(const std::string &option) const {
        const auto given = options.find(option);
        return given == options.end() ? std::nullopt : std::optional(given->second);
    }

    // Whether the graph is squeezed, or swept, by the command or by an option.
    bool asks(Command command, const std::string &option) const {
        return form.command == command || has(option);
    }

    // What is wrong with the words, and that the command's own help says more.
    Failure slip(const std::string &why) const { return bad_usage(why, form.name); }
};

const CommandForm &form_of(const std::string &name) {
    for (const CommandForm &form : command_forms) {
        if (form.name == name) {
            return form;
        }
    }
    throw bad_usage("there is no command '" + name + "'");
}

bool asks_for_help(const std::string &word) {
    return word == "help" || word == "-h" || word == "--help";
}

bool has_option(const CommandForm &form, const std::string &name) {
    return asks_for_help(name)
           || std::find(form.options.begin(), form.options.end(), name) != form.options.end();
}

// Takes the option at words[at] and its value, which stands behind a '=' or is
// the next word. Returns the place of the last word that was taken.
std::size_t take_option(const std::vector<std::string> &words, std::size_t at,
                        SortedWords &sorted) {
    const bool is_long = words[at].compare(0, 2, "--") == 0;
    const std::size_t equals = is_long ? words[at].find('=') : std::string::npos;
    const std::string name = words[at].substr(0, equals);
    if (!has_option(sorted.form, name)) {
        throw sorted.slip(sorted.form.name + " has no option '" + name + "'");
    }
    if (sorted.has(name)) {
        throw sorted.slip(name + " is given twice");
    }
    const auto value = option_values.find(name);
    if (value == option_values.end()) {
        if (equals != std::string::npos) {
            throw sorted.slip(name + " takes no value");
        }
        sorted.options[name] = "";
        return at;
    }
    if (equals != std::string::npos) {
        sorted.options[name] = words[at].substr(equals + 1);
        return at;
    }
    if (at + 1 == words.size()) {
        throw sorted.slip(name + " wants " + value->second);
    }
    sorted.options[name] = words[at + 1];
    return at + 1;
}

// Takes a word that is no option.
void take_operand(const std::string &word, SortedWords &sorted) {
    const bool all_files = sorted.files.size() == sorted.form.files.size();
    if (sorted.form.takes_vertex && all_files && !sorted.vertex) {
        sorted.vertex = word;
    } else {
        sorted.files.push_back(word);
    }
}

SortedWords sort_words(const std::vector<std::string> &words) {
    SortedWords sorted = {form_of(words[0]), {}, {}, {}};
    bool only_files = false;
    for (std::size_t at = 1; at < words.size(); ++at) {
        const std::string &word = words[at];
        if (only_files || word == "-" || word.compare(0, 1, "-") != 0) {
            take_operand(word, sorted);
        } else if (word == "--") {
            only_files = true;
        } else {
            at = take_option(words, at, sorted);
        }
    }
    return sorted;
}

void check_files(const SortedWords &sorted) {
    const CommandForm &form = sorted.form;
    const std::vector<std::string> &files = sorted.files;
    if (files.size() < form.least_files) {
        throw sorted.slip(form.name + " wants a " + form.files[files.size()]);
    }
    if (form.takes_vertex && !sorted.vertex) {
        throw sorted.slip(form.name + " wants a VERTEX");
    }
    if (files.size() > form.files.size()) {
        const std::string last = form.takes_vertex ? "VERTEX" : form.files.back();
        throw sorted.slip(form.name + " wants nothing after " + last + ", but '"
                          + files[form.files.size()] + "' is given");
    }
    if (std::count(files.begin(), files.end(), "-") > 1) {
        throw sorted.slip("only one of GRAPH and RULE can be standard input");
    }
}

// An option that would do nothing is a slip: better told than passed over.
void check_options(const SortedWords &sorted) {
    if (sorted.has("--max") && !sorted.has("--all")) {
        throw sorted.slip("--max is only for --all");
    }
    if (sorted.has("--moves") && !sorted.asks(Command::squeeze, "--squeeze")) {
        throw sorted.slip("--moves is only for --squeeze");
    }
    for (const std::string option : {"--numbers", "--counts"}) {
        if (sorted.has(option) && sorted.has("-o")) {
            throw sorted.slip(option + " is for the text, and with -o there is none");
        }
    }
    if (sorted.has("--start") && sorted.files.size() < 2) {
        throw sorted.slip("--start is only for a RULE");
    }
}

// That the file of an option replaces none of the files that are read, from this one on.
void check_kept(const SortedWords &sorted, const std::string &option, std::size_t first_kept) {
    const std::optional<std::string> file = sorted.value(option);
    for (std::size_t at = first_kept; file && at < sorted.files.size(); ++at) {
        if (would_replace(*file, sorted.files[at])) {
            throw sorted.slip(option + " " + *file + " would replace the " + sorted.form.files[at]
                              + ": name another file");
        }
    }
}

// To put a new graph in the place of the old one is often wanted; to put it in the
// place of the rule or of the text that it is read from, or a drawing or a list in the
// place of either, never is. Nor are a graph and a list in one place.
void check_outputs(const SortedWords &sorted) {
    const Command command = sorted.form.command;
    const bool keeps_first = command == Command::dot || command == Command::read_text;
    check_kept(sorted, "-o", keeps_first ? 0 : 1);
    check_kept(sorted, "--moves", 0);
    const std::optional<std::string> moves = sorted.value("--moves");
    // Without -o the graph is printed.
    if (moves && same_output(*moves, sorted.value("-o").value_or("-"))) {
        throw sorted.slip("--moves " + *moves + " is where the new graph goes: name another file");
    }
}

// The number that stands in a text; `what` says of it what it must be.
std::size_t number_in(const std::string &text, const std::string &what,
                      const SortedWords &sorted) {
    std::size_t result = 0;
    const auto [end, error] = std::from_chars(text.data(), text.data() + text.size(), result);
    if (error != std::errc() || end != text.data() + text.size()) {
        const std::size_t most = std::numeric_limits<std::size_t>::max();
        throw sorted.slip(what + " a decimal number from 0 to " + std::to_string(most)
                          + ", not '" + text + "'");
    }
    return result;
}

std::size_t number(const SortedWords &sorted, const std::string &option, std::size_t otherwise) {
    const std::optional<std::string> given = sorted.value(option);
    return given ? number_in(*given, option + " wants", sorted) : otherwise;
}

CommandLine make_line(const SortedWords &sorted) {
    CommandLine line = {};
    line.command = sorted.form.command;
    line.files = sorted.files;
    line.vertex = sorted.vertex ? number_in(*sorted.vertex, "VERTEX is", sorted) : line.vertex;
    line.start = number(sorted, "--start", line.start);
    line.max = number(sorted, "--max", line.max);
    line.out = sorted.value("-o");
    line.moves = sorted.value("--moves");
    line.all = sorted.has("--all");
    line.sweep = sorted.asks(Command::sweep, "--sweep");
    line.squeeze = sorted.asks(Command::squeeze, "--squeeze");
    line.numbers = sorted.has("--numbers");
    line.counts = sorted.has("--counts");
    line.svg = sorted.has("--svg");
    return line;
}

// 'help', and 'help COMMAND'.
Request read_help(const std::vector<std::string> &words) {
    if (words.size() > 2) {
        throw bad_usage(words[0] + " wants one COMMAND at most, but '" + words[2] + "' is given");
    }
    if (words.size() == 1 || asks_for_help(words[1])) {
        return {Request::Wish::help, {}, {}};
    }
    return {Request::Wish::help, {}, form_of(words[1]).command};
}

Request read_version(const std::vector<std::string> &words) {
    if (words.size() > 1) {
        throw bad_usage("nothing can stand after " + words[0]);
    }
    return {Request::Wish::version, {}, {}};
}

Request read_command(const std::vector<std::string> &words) {
    const SortedWords sorted = sort_words(words);
    if (sorted.has("-h") || sorted.has("--help")) {
        return {Request::Wish::help, {}, sorted.form.command};
    }
    check_files(sorted);
    check_options(sorted);
    check_outputs(sorted);
    return {Request::Wish::run, make_line(sorted), {}};
}

} // namespace

Request read_command_line(const std::vector<std::string> &words) {
    if (words.empty()) {
        throw bad_usage("a command is wanted");
    }
    const std::string &first = words[0];
    if (asks_for_help(first)) {
        return read_help(words);
    }
    if (first == "-V" || first == "--version") {
        return read_version(words);
    }
    if (first.compare(0, 1, "-") == 0) {
        throw bad_usage("a command is wanted before '" + first + "'");
    }
    return read_command(words);
}

} // namespace leafgraph::tool
