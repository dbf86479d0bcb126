#include "system.hpp"

#include <cerrno>
#include <cstring>

#include <fcntl.h>
#include <unistd.h>

#include "stop.hpp"

namespace host {

void system_refused(const std::string& asked) {
    throw Failure{kFailed, asked + ": " + std::strerror(errno)};
}

// A close that fails loses nothing: whatever must last was synced before.
File::~File() {
    if (fd_ >= 0) ::close(fd_);
}

std::optional<File> open_if_there(int folder, const std::string& name, int flags) {
    constexpr mode_t kReadableByAll = 0644;
    const int fd = ::openat(folder, name.c_str(), flags | O_CLOEXEC, kReadableByAll);
    if (fd >= 0) return File{fd};
    if (errno != ENOENT) system_refused("open " + name);
    return std::nullopt;
}

File open_or_fail(int folder, const std::string& name, int flags) {
    std::optional<File> file = open_if_there(folder, name, flags);
    if (!file) system_refused("open " + name);
    return std::move(*file);
}

std::string read_up_to(int fd, std::size_t limit, const std::string& what) {
    std::string bytes(limit, '\0');
    std::size_t have = 0;
    while (have < limit) {
        const ssize_t got = ::read(fd, &bytes[have], limit - have);
        if (got == 0) break;
        if (got > 0) {
            have += static_cast<std::size_t>(got);
        } else if (errno != EINTR) {
            system_refused("read " + what);
        }
    }
    bytes.resize(have);
    return bytes;
}

static void write_all(int fd, std::string_view bytes, const std::string& what) {
    while (!bytes.empty()) {
        const ssize_t put = ::write(fd, bytes.data(), bytes.size());
        if (put >= 0) {
            bytes.remove_prefix(static_cast<std::size_t>(put));
        } else if (errno != EINTR) {
            system_refused("write " + what);
        }
    }
}

void write_whole(int fd, std::string_view bytes, const std::string& what) {
    stop::at("before the write of " + what);
    if (stop::here("in the middle of the write of " + what)) {
        write_all(fd, bytes.substr(0, bytes.size() / 2), what);
        stop::now();
    }
    write_all(fd, bytes, what);
}

void sync(int fd, const std::string& what) {
    while (::fsync(fd) != 0)
        if (errno != EINTR) system_refused("fsync " + what);
}

}  // namespace host
