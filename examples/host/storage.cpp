#include "storage.hpp"

#include <cerrno>
#include <optional>

#include <fcntl.h>
#include <sys/file.h>

#include "stop.hpp"

namespace host {

static constexpr std::uint64_t kMagic = 0x73656c626174764d;  // "Mvtables"
static constexpr std::uint64_t kVersion = 1;
static constexpr std::size_t kFileBytes = 8 * (3 + mv::kWords + 1);

static void put_word(std::string& bytes, std::uint64_t word) {
    for (int shift = 0; shift < 64; shift += 8) bytes.push_back(static_cast<char>(word >> shift & 0xff));
}

static std::uint64_t word_at(std::string_view bytes, std::size_t index) {
    std::uint64_t word = 0;
    for (std::size_t i = 8; i-- > 0;) word = word << 8 | static_cast<unsigned char>(bytes[8 * index + i]);
    return word;
}

static std::uint64_t checksum(std::string_view bytes) {
    std::uint64_t sum = 0xcbf29ce484222325;
    for (const char byte : bytes) sum = (sum ^ static_cast<unsigned char>(byte)) * 0x100000001b3;
    return sum;
}

// Why the bytes are no file of this host; nothing where they are one.
static std::optional<std::string> spoiled(std::string_view bytes) {
    if (bytes.size() < 8 || word_at(bytes, 0) != kMagic) return "not a file of this host";
    if (bytes.size() < 16 || word_at(bytes, 1) != kVersion) return "a format that this host does not know";
    if (bytes.size() != kFileBytes || word_at(bytes, 2) != mv::kWords) return "not as long as the tables are";
    const std::string_view summed = bytes.substr(0, kFileBytes - 8);
    if (word_at(bytes, kFileBytes / 8 - 1) != checksum(summed)) return "the checksum does not fit";
    return std::nullopt;
}

Storage::Storage(const std::string& folder)
    : name_(folder), folder_(open_or_fail(AT_FDCWD, folder, O_RDONLY | O_DIRECTORY)) {}

void Storage::be_the_only_booker() {
    if (::flock(folder(), LOCK_EX | LOCK_NB) == 0) return;
    if (errno == EWOULDBLOCK) throw Failure{kFailed, name_ + ": another host is booking here"};
    system_refused("lock " + name_);
}

mv::Tables Storage::load() const {
    mv::Tables tables;
    const std::optional<File> file = open_if_there(folder(), "tables", O_RDONLY);
    if (!file) return tables;
    const std::string bytes = read_up_to(file->fd(), kFileBytes + 1, "tables");
    if (const auto why = spoiled(bytes)) throw Failure{kSpoiled, name_ + "/tables: " + *why};
    for (std::size_t i = 0; i < mv::kWords; ++i) tables.data()[i] = word_at(bytes, 3 + i);
    // The core tests the words itself: a checksum says only that they are the ones that somebody wrote.
    const mv::Answer restarted = tables.restart();
    if (!restarted.done()) throw Failure{kSpoiled, name_ + "/tables: " + std::string{restarted.name()}};
    return tables;
}

void Storage::store(const mv::Tables& tables, const std::string& what) {
    std::string bytes;
    bytes.reserve(kFileBytes);
    put_word(bytes, kMagic);
    put_word(bytes, kVersion);
    put_word(bytes, mv::kWords);
    for (std::size_t i = 0; i < mv::kWords; ++i) put_word(bytes, tables.data()[i]);
    put_word(bytes, checksum(bytes));

    const File file = open_or_fail(folder(), "tables.new", O_WRONLY | O_CREAT | O_TRUNC);
    write_whole(file.fd(), bytes, what);
    stop::at("before the fsync of " + what);
    sync(file.fd(), "tables.new");
    stop::at("before the rename of " + what);
    if (::renameat(folder(), "tables.new", folder(), "tables") != 0) system_refused("rename tables.new");
    stop::at("after the rename of " + what);
    sync(folder(), name_);
}

}  // namespace host
