#include "graphviz.hpp"

#include <cerrno>
#include <cstdio>
#include <limits>
#include <memory>
#include <system_error>

#include <fcntl.h>
#include <spawn.h>
#include <sys/wait.h>
#include <unistd.h>

#include "descriptor.hpp"
#include "failure.hpp"

extern char **environ;

namespace leafgraph::tool {
namespace {

Failure not_installed() {
    return Failure(Status::trouble, {"Graphviz' dot isn't installed, and --svg needs it"});
}

// A file without a name, gone when it is closed. dot reads from one and writes
// to another: with pipes both programs could wait for each other.
Descriptor nameless_file() {
    std::FILE *file = std::tmpfile();
    if (file == nullptr) {
        throw std::system_error(errno, std::generic_category());
    }
    const std::unique_ptr<std::FILE, int (*)(std::FILE *)> owner(file, std::fclose);
    // Not 0 to 2, which dot is given anew.
    return Descriptor(::fcntl(::fileno(file), F_DUPFD_CLOEXEC, 3));
}

void go_to_start(const Descriptor &file) {
    if (::lseek(file.number(), 0, SEEK_SET) == -1) {
        throw std::system_error(errno, std::generic_category());
    }
}

// Starts "dot -Tsvg" on the two files; says the number of its process.
pid_t start_dot(int in, int out) {
    posix_spawn_file_actions_t actions;
    posix_spawn_file_actions_init(&actions);
    posix_spawn_file_actions_adddup2(&actions, in, STDIN_FILENO);
    posix_spawn_file_actions_adddup2(&actions, out, STDOUT_FILENO);
    char program[] = "dot";
    char format[] = "-Tsvg";
    char *arguments[] = {program, format, nullptr};
    pid_t process = 0;
    const int reason = ::posix_spawnp(&process, program, &actions, nullptr, arguments, environ);
    posix_spawn_file_actions_destroy(&actions);
    if (reason == ENOENT) {
        throw not_installed();
    }
    if (reason != 0) {
        throw std::system_error(reason, std::generic_category());
    }
    return process;
}

void wait_for_dot(pid_t process) {
    int end = 0;
    while (::waitpid(process, &end, 0) == -1) {
        if (errno != EINTR) {
            throw std::system_error(errno, std::generic_category());
        }
    }
    // A system may tell only so that there is no such program.
    constexpr int no_such_program = 127;
    if (WIFEXITED(end) && WEXITSTATUS(end) == no_such_program) {
        throw not_installed();
    }
    if (!WIFEXITED(end) || WEXITSTATUS(end) != 0) {
        const std::string how = WIFEXITED(end) ? "status " + std::to_string(WEXITSTATUS(end))
                                               : "signal " + std::to_string(WTERMSIG(end));
        throw Failure(Status::trouble, {"Graphviz' dot failed with " + how});
    }
}

} // namespace

std::vector<std::uint8_t> svg_of(const std::string &dot_text) {
    try {
        const Descriptor drawing = nameless_file();
        const Descriptor svg = nameless_file();
        write_all(drawing.number(), dot_text);
        go_to_start(drawing);
        wait_for_dot(start_dot(drawing.number(), svg.number()));
        go_to_start(svg);
        return read_up_to(svg.number(), std::numeric_limits<std::size_t>::max());
    } catch (const std::system_error &error) {
        throw system_failure("can't run Graphviz' dot", error);
    }
}

} // namespace leafgraph::tool
