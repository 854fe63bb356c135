// What ends a command early: an exit status, and lines that say why.
#ifndef LEAFGRAPH_TOOL_FAILURE_HPP
#define LEAFGRAPH_TOOL_FAILURE_HPP

#include <exception>
#include <string>
#include <system_error>
#include <utility>
#include <vector>

namespace leafgraph::tool {

// The exit status of the program.
enum class Status {
    done = 0,
    refused = 1, // by the library, or by a bound that stands for it
    trouble = 2, // bad usage, or a file that can't be read or written
    no_match = 3 // an answer, which a script may well expect
};

// Thrown where a command can't go on; main prints the lines.
class Failure : public std::exception {
public:
    Failure(Status status, std::vector<std::string> lines)
        : status_(status), lines_(std::move(lines)) {}

    Status status() const noexcept { return status_; }
    const std::vector<std::string> &lines() const noexcept { return lines_; }
    const char *what() const noexcept override { return lines_.front().c_str(); }

private:
    Status status_;
    std::vector<std::string> lines_; // one at least
};

// The command line makes no sense. Where it names a command, that one's help is
// the one to read.
inline Failure bad_usage(const std::string &why, const std::string &command = "") {
    const std::string program = command.empty() ? "leafgraph" : "leafgraph " + command;
    return Failure(Status::trouble, {why, "try '" + program + " --help'"});
}

// The system didn't do something: `what` says to which file.
inline Failure system_failure(const std::string &what, const std::system_error &error) {
    return Failure(Status::trouble, {what + ": " + error.code().message()});
}

} // namespace leafgraph::tool

#endif // LEAFGRAPH_TOOL_FAILURE_HPP
