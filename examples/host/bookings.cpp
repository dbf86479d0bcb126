#include "bookings.hpp"

#include <algorithm>
#include <cerrno>
#include <charconv>
#include <limits>

#include <unistd.h>

#include "system.hpp"

namespace host {

static constexpr std::size_t kLongestLine = 120;

static std::vector<std::string_view> words_of(std::string_view line) {
    constexpr std::string_view kBlanks = " \t";
    std::vector<std::string_view> words;
    for (std::size_t at = line.find_first_not_of(kBlanks); at != line.npos; at = line.find_first_not_of(kBlanks, at)) {
        const std::size_t end = std::min(line.find_first_of(kBlanks, at), line.size());
        words.push_back(line.substr(at, end - at));
        at = end;
    }
    return words;
}

static std::uint64_t number(std::string_view word, std::uint64_t highest, const char* what) {
    std::uint64_t value = 0;
    const auto [end, error] = std::from_chars(word.data(), word.data() + word.size(), value);
    if (error != std::errc{} || end != word.data() + word.size() || value > highest)
        throw BadLine{std::string{what} + " is no whole number from 0 to " + std::to_string(highest)};
    return value;
}

static mv::Obj tube(std::string_view word) {
    return mv::Obj{static_cast<std::uint8_t>(number(word, MV_OBJECTS - 1, "a tube"))};
}

static std::uint64_t volume(std::string_view word) {
    return number(word, std::numeric_limits<std::uint64_t>::max(), "a volume");
}

Booking parse(std::string_view line) {
    using Kind = Change::Kind;
    if (line.size() > kLongestLine) throw BadLine{"longer than any booking"};
    const std::vector<std::string_view> words = words_of(line);
    if (words.empty() || words[0][0] == '#') return {};

    const std::string verb{words[0]};
    if (verb == "move") {
        if (words.size() != 4) throw BadLine{"move needs two tubes and a volume"};
        const mv::Obj from = tube(words[1]), to = tube(words[2]);
        if (from == to) throw BadLine{"move needs two different tubes"};
        return {{{Kind::take, from, volume(words[3])}, {Kind::add, to, volume(words[3])}}};
    }
    if (verb != "fill" && verb != "load" && verb != "measure")
        throw BadLine{"a booking begins with fill, load, move or measure"};
    if (words.size() != 3) throw BadLine{verb + " needs a tube and a volume"};
    const Kind kind = verb == "fill" ? Kind::add : verb == "load" ? Kind::take : Kind::set;
    return {{{kind, tube(words[1]), volume(words[2])}}};
}

bool Lines::at_hand() const {
    return read_.find('\n') != read_.npos;
}

std::optional<Lines::Line> Lines::next() {
    constexpr std::size_t kAtOnce = 1 << 16;
    std::size_t end = read_.find('\n');
    while (end == read_.npos) {
        // Not read_up_to: that would wait for more than the line.
        char more[kAtOnce];
        const ssize_t got = ::read(fd_, more, sizeof more);
        if (got < 0 && errno == EINTR) continue;
        if (got < 0) system_refused("read the bookings");
        if (got == 0) break;
        read_.resize(std::min(read_.size(), kLongestLine + 1));
        read_.append(more, static_cast<std::size_t>(got));
        end = read_.find('\n');
    }
    const bool ended = end != read_.npos;
    if (!ended && read_.empty()) return std::nullopt;
    Line line{++count_, read_.substr(0, ended ? end : read_.size()), ended};
    read_.erase(0, ended ? end + 1 : read_.size());
    return line;
}

}  // namespace host
