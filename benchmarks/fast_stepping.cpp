// The stepping program over the fast C++ core, without soundness tests: the peer of the proved program.
#include <cstdint>
#include <cstring>
#include <unistd.h>
#include <vector>

#include "fast_core.hpp"

namespace {

constexpr std::size_t kBlock = 1 << 16;

bool write_all(const char* from, std::size_t count) {
    while (count > 0) {
        const ssize_t done = write(1, from, count);
        if (done <= 0) return false;
        from += done;
        count -= static_cast<std::size_t>(done);
    }
    return true;
}

}  // namespace

int main() {
    std::vector<std::uint64_t> words(fast::kWords);
    fast::Core<false> core(words.data());
    core.fresh();
    std::vector<char> in(kBlock + 32), out(19 * kBlock);
    std::size_t kept = 0;
    for (;;) {
        const ssize_t got = read(0, in.data() + kept, kBlock);
        const std::size_t end = kept + static_cast<std::size_t>(got > 0 ? got : 0);
        std::size_t at = 0, to = 0;
        while (at < end) {
            fast::Call call;
            if (end - at >= 29 && fast::read_frame(in.data() + at, call)) {
                fast::write_answer(out.data() + to, core.call(call));
                at += 29;
            } else {
                const void* feed = std::memchr(in.data() + at, '\n', end - at);
                if (!feed && got > 0) break;
                fast::write_answer(out.data() + to, {0x12, 0});
                at = feed ? static_cast<std::size_t>(static_cast<const char*>(feed) - in.data()) + 1 : end;
            }
            to += 19;
        }
        if (!write_all(out.data(), to) || got <= 0) return 0;
        // of an unfinished line, as much as tells that it is no frame
        kept = end - at < 30 ? end - at : 30;
        std::memmove(in.data(), in.data() + at, kept);
    }
}
