// What the host asks of the system: files that close themselves, whole writes, and one clear line for a call that
// fails.
#pragma once

#include <optional>
#include <string>
#include <string_view>
#include <utility>

namespace host {

enum Exit {
    kDone = 0,
    kFailed = 1,    // the system refused something
    kBadInput = 2,  // wrong usage, or a line that is no booking
    kSpoiled = 3,   // FOLDER/tables is not what this host wrote
    kFull = 4,      // the tables have no room for another booking
};

// Why the host ends early: its exit status, and one line for standard error.
struct Failure {
    Exit status;
    std::string line;
};

// Throws a Failure with what was asked and the system's reason, which errno has.
[[noreturn]] void system_refused(const std::string& asked);

class File {
public:
    explicit File(int fd) noexcept : fd_(fd) {}
    File(File&& other) noexcept : fd_(std::exchange(other.fd_, -1)) {}
    File& operator=(File&&) = delete;
    ~File();

    int fd() const noexcept { return fd_; }

private:
    int fd_;
};

// Opens a file in a folder; a file that is not there is none, and any other refusal is a Failure.
std::optional<File> open_if_there(int folder, const std::string& name, int flags);
File open_or_fail(int folder, const std::string& name, int flags);

// At most `limit` bytes from where the file stands, fewer only at its end.
std::string read_up_to(int fd, std::size_t limit, const std::string& what);

// Writes all the bytes, in one call to the system unless it takes only a part. The kill test may have the host stop
// before the write or when half of it is done (stop.hpp).
void write_whole(int fd, std::string_view bytes, const std::string& what);

// Returns once what was written to the file, or the names in the folder, are on storage. A refusal ends the host: the
// system may have dropped what it could not write, and a second try would not know of it.
void sync(int fd, const std::string& what);

}  // namespace host
