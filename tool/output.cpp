#include "output.hpp"

#include <cerrno>
#include <cstdio>
#include <filesystem>
#include <system_error>

#include <fcntl.h>
#include <sys/stat.h>
#include <unistd.h>

#include "descriptor.hpp"
#include "failure.hpp"
#include "text.hpp"

namespace leafgraph::tool {
namespace {

namespace fs = std::filesystem;

// A new file in the folder of the one that it is to replace: only within one
// file system is renaming atomic. Unless it becomes that file, it is removed.
class TemporaryFile {
public:
    explicit TemporaryFile(const fs::path &folder)
        : path_((folder / ".leafgraph-XXXXXX").string()), file_(::mkstemp(path_.data())) {}
    ~TemporaryFile() {
        if (!path_.empty()) {
            ::unlink(path_.c_str());
        }
    }
    TemporaryFile(const TemporaryFile &) = delete;
    TemporaryFile &operator=(const TemporaryFile &) = delete;

    void write(Bytes bytes, mode_t mode) {
        write_all(file_.number(), bytes);
        checked(::fchmod(file_.number(), mode));
    }

    void become(const fs::path &target) {
        // On the disk before the name is: else a crash could leave the name
        // with an empty file.
        checked(::fsync(file_.number()));
        file_.close();
        checked(std::rename(path_.c_str(), target.c_str()));
        path_.clear();
    }

private:
    std::string path_; // empty once it has become another
    Descriptor file_;
};

// Where a path leads through its symbolic links. The last may lead to a file
// that isn't there yet.
fs::path followed(fs::path path) {
    constexpr int most_links = 40;
    for (int links = 0; fs::is_symlink(fs::symlink_status(path)); ++links) {
        if (links == most_links) {
            throw std::system_error(ELOOP, std::generic_category());
        }
        // An absolute target replaces the folder here.
        path = path.parent_path() / fs::read_symlink(path);
    }
    return path;
}

// The one path of a file, which need not be there yet; empty where none can be told.
fs::path whole_path(const std::string &path) {
    try {
        return fs::weakly_canonical(fs::absolute(followed(path)));
    } catch (const std::system_error &) {
        return {};
    }
}

// The mode that a new file gets anywhere else. The umask can't be asked for
// without being set.
mode_t mode_of_new_file() {
    const mode_t mask = ::umask(0);
    ::umask(mask);
    return 0666 & ~mask;
}

void replace(const fs::path &target, Bytes bytes, mode_t mode) {
    const fs::path folder = target.parent_path();
    TemporaryFile file(folder.empty() ? fs::path(".") : folder);
    file.write(bytes, mode);
    file.become(target);
}

// A device or a pipe has no content to keep, and must not be renamed away.
void write_directly(const fs::path &target, Bytes bytes) {
    Descriptor file(::open(target.c_str(), O_WRONLY | O_CLOEXEC));
    write_all(file.number(), bytes);
    file.close();
}

void write_file(const fs::path &path, Bytes bytes) {
    const fs::path target = followed(path);
    struct stat old = {};
    if (::stat(target.c_str(), &old) != 0) {
        if (errno != ENOENT) {
            throw std::system_error(errno, std::generic_category());
        }
        replace(target, bytes, mode_of_new_file());
    } else if (!S_ISREG(old.st_mode)) {
        write_directly(target, bytes);
    } else {
        // Renaming would not ask whether the file may be written.
        checked(::access(target.c_str(), W_OK));
        replace(target, bytes, old.st_mode & 07777);
    }
}

} // namespace

void print(Bytes bytes) {
    try {
        write_all(STDOUT_FILENO, bytes);
    } catch (const std::system_error &error) {
        throw system_failure("standard output: can't write", error);
    }
}

void say(const std::string &line) noexcept {
    try {
        write_all(STDERR_FILENO, "leafgraph: " + printable(line) + "\n");
    } catch (...) {
    }
}

void write_output(const std::string &path, Bytes bytes) {
    if (path == "-") {
        print(bytes);
        return;
    }
    try {
        write_file(path, bytes);
    } catch (const std::system_error &error) {
        throw system_failure(file_name(path) + ": can't write", error);
    }
}

bool would_replace(const std::string &path, const std::string &input_path) {
    if (path == "-") {
        return false;
    }
    const fs::path input = input_path == "-" ? "/dev/stdin" : input_path;
    // Asks for the same device and inode. Pipes and devices, which lose nothing,
    // are never called equivalent; nor is a path that leads nowhere.
    std::error_code no_answer;
    return fs::equivalent(path, input, no_answer);
}

bool same_output(const std::string &path, const std::string &other) {
    const std::string one = path == "-" ? "/dev/stdout" : path;
    const std::string two = other == "-" ? "/dev/stdout" : other;
    // Links to one file have one inode; a file that is not there yet has only its path,
    // and a pipe has only the one that the system gives it.
    std::error_code no_answer;
    const fs::path whole = whole_path(one);
    return fs::equivalent(one, two, no_answer) || (!whole.empty() && whole == whole_path(two));
}

} // namespace leafgraph::tool
