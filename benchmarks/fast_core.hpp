// The peer: the same job in C++, as a good engineer would write it to be fast. It works on the same lent words, answers and
// leaves the same, and tests the words in the same linear way, or not at all where Tested is false. Nothing here is proved;
// ./bench holds its answers against the core's before it measures.
#pragma once

#include <cstddef>
#include <cstdint>
#include <cstring>

namespace fast {

struct Answer {
    std::uint64_t number;
    std::uint64_t value;
};

struct Call {
    std::uint8_t kind;
    std::uint8_t object;
    std::uint32_t txn;
    std::uint64_t value;
};

// The words as docs/LAYOUT.md has them.
struct Words {
    std::uint64_t next, log_count, log[512];
    std::uint64_t number[32], accessed[32], written[32], prepared[32], depends[32];
    std::uint64_t stable_value[32], stable_writer[32], stable_number[32];
    std::uint64_t holder[32], working[32], saved[32], queued[32];
    std::uint64_t chain_value[32][8], chain_writer[32][8];
};
constexpr std::size_t kWords = sizeof(Words) / 8;
static_assert(kWords == 1410);

inline bool has(std::uint64_t set, unsigned n) { return set >> n & 1; }
inline unsigned lowest(std::uint64_t set) { return static_cast<unsigned>(__builtin_ctzll(set)); }

// ---- the soundness test

class Test {
public:
    explicit Test(const Words& words) : w(words) {}

    bool sound() {
        if (w.next - 1 >= 1000000 || w.log_count > 512) return false;
        return log() && places() && objects();
    }

private:
    // The log number of a transaction, or 0: down its bucket.
    unsigned log_number(std::uint64_t txn) const {
        unsigned at = head[txn % 1024];
        while (at && w.log[at - 1] != txn) at = before[at - 1];
        return at;
    }

    bool log() {
        std::memset(head, 0, sizeof head);
        const unsigned count = static_cast<unsigned>(w.log_count);
        for (unsigned i = 0; i < count; ++i) {
            const std::uint64_t txn = w.log[i];
            if (txn - 1 >= w.next - 1 || log_number(txn)) return false;
            before[i] = head[txn % 1024];
            head[txn % 1024] = static_cast<std::uint16_t>(i + 1);
        }
        std::uint64_t past = 0;
        for (unsigned i = count; i < 512; ++i) past |= w.log[i];
        return past == 0;
    }

    unsigned place_of(std::uint64_t txn) const {
        for (std::uint64_t left = live; left; left &= left - 1)
            if (w.number[lowest(left)] == txn) return lowest(left);
        return 32;
    }

    bool places() {
        live = 0;
        for (unsigned p = 0; p < 32; ++p) live |= std::uint64_t{w.number[p] != 0} << p;
        for (unsigned p = 0; p < 32; ++p) {
            if (!has(live, p)) {
                if (w.accessed[p] | w.written[p] | w.prepared[p] | w.depends[p]) return false;
                continue;
            }
            const std::uint64_t txn = w.number[p];
            if (txn >= w.next || place_of(txn) != p || log_number(txn)) return false;
            if (w.accessed[p] >> 32 || ((w.written[p] | w.prepared[p]) & ~w.accessed[p])) return false;
            if (w.depends[p] & ~live || has(w.depends[p], p)) return false;
        }
        return true;
    }

    bool depends_if_live(unsigned p, unsigned on) const { return on == 32 || has(w.depends[p], on); }

    bool objects() const {
        for (unsigned o = 0; o < 32; ++o) {
            if (w.saved[o] > 8 || w.queued[o] > 8 || w.saved[o] + w.queued[o] > 8) return false;
            const unsigned length = static_cast<unsigned>(w.saved[o] + w.queued[o]);
            std::uint64_t past = 0;
            for (unsigned j = length; j < 8; ++j) past |= w.chain_value[o][j] | w.chain_writer[o][j];
            if (past) return false;
            if (w.stable_number[o] == 0) {
                if (w.stable_value[o] | w.stable_writer[o]) return false;
            } else if (w.stable_number[o] > w.log_count || w.log[w.stable_number[o] - 1] != w.stable_writer[o]) {
                return false;
            }
            if (!chain(o, length)) return false;
        }
        return true;
    }

    bool chain(unsigned o, unsigned length) const {
        std::uint64_t risen = w.stable_number[o];
        unsigned last = 32;
        bool live_came = false;
        for (unsigned j = 0; j < length; ++j) {
            const std::uint64_t txn = w.chain_writer[o][j];
            for (unsigned k = 0; k < j; ++k)
                if (w.chain_writer[o][k] == txn) return false;
            if (const unsigned number = log_number(txn)) {
                if (live_came || j >= w.saved[o] || number <= risen) return false;
                risen = number;
                continue;
            }
            live_came = true;
            const unsigned p = place_of(txn);
            if (p == 32 || !has(w.written[p] & w.prepared[p], o) || !depends_if_live(p, last)) return false;
            last = p;
        }
        if (w.holder[o] == 0) return w.working[o] == 0;
        const unsigned p = place_of(w.holder[o]);
        return p < 32 && has(w.accessed[p] & ~w.prepared[p], o) && depends_if_live(p, last);
    }

    const Words& w;
    std::uint64_t live = 0;
    std::uint16_t head[1024];
    std::uint16_t before[512];
};

// ---- the steps

template <bool Tested>
class Core {
public:
    explicit Core(std::uint64_t* words) : w(*reinterpret_cast<Words*>(words)) {}

    void fresh() {
        std::memset(&w, 0, sizeof w);
        w.next = 1;
    }

    bool sound() const { return Test(w).sound(); }

    Answer call(const Call& c) {
        if (Tested && !sound()) return {0x01, 0};
        switch (c.kind) {
            case 1: return start();
            case 2: return read(c.txn, c.object);
            case 3: return write(c.txn, c.object, c.value);
            case 4: return prepare(c.txn, c.object);
            case 5: return save(c.object);
            case 6: return commit(c.txn);
            case 7: return abort(c.txn);
            case 8: return c.object > 31 ? Answer{0x02, 0} : Answer{0x00, settle(c.object)};
            case 9: return crash(c.value);
            case 10: return restart();
            case 11: return given_out(c.txn) ? Answer{0x00, status(c.txn)} : Answer{0x03, 0};
            default: return c.object > 31 ? Answer{0x02, 0} : Answer{0x00, w.stable_value[c.object]};
        }
    }

private:
    bool given_out(std::uint64_t txn) const { return txn - 1 < w.next - 1; }

    unsigned place_of(std::uint64_t txn) const {
        for (unsigned p = 0; p < 32; ++p)
            if (w.number[p] == txn) return p;
        return 32;
    }

    unsigned log_number(std::uint64_t txn) const {
        const unsigned count = static_cast<unsigned>(w.log_count);
        for (unsigned i = 0; i < count; ++i)
            if (w.log[i] == txn) return i + 1;
        return 0;
    }

    std::uint64_t status(std::uint64_t txn) const { return place_of(txn) < 32 ? 1 : log_number(txn) ? 2 : 3; }

    void clear_from(unsigned o, unsigned length) {
        for (unsigned j = length; j < 8; ++j) w.chain_value[o][j] = w.chain_writer[o][j] = 0;
    }

    std::uint64_t undo(unsigned place) {
        std::uint64_t fallen = std::uint64_t{1} << place;
        for (std::uint64_t before = 0; before != fallen;) {
            before = fallen;
            for (unsigned p = 0; p < 32; ++p) fallen |= std::uint64_t{(w.depends[p] & before) != 0} << p;
        }
        for (unsigned o = 0; o < 32; ++o) {
            if (falls(w.holder[o], fallen)) w.holder[o] = w.working[o] = 0;
            // whoever depends on a fallen entry falls too, so what falls is the chain's end
            const unsigned length = static_cast<unsigned>(w.saved[o] + w.queued[o]);
            unsigned kept = 0;
            while (kept < length && !falls(w.chain_writer[o][kept], fallen)) ++kept;
            if (kept == length) continue;
            if (w.saved[o] > kept) w.saved[o] = kept;
            w.queued[o] = kept - w.saved[o];
            clear_from(o, kept);
        }
        for (std::uint64_t left = fallen; left; left &= left - 1) free_place(lowest(left));
        return static_cast<std::uint64_t>(__builtin_popcountll(fallen));
    }

    bool falls(std::uint64_t txn, std::uint64_t fallen) const {
        if (txn == 0) return false;
        for (std::uint64_t left = fallen; left; left &= left - 1)
            if (w.number[lowest(left)] == txn) return true;
        return false;
    }

    void free_place(unsigned p) { w.number[p] = w.accessed[p] = w.written[p] = w.prepared[p] = w.depends[p] = 0; }

    Answer start() {
        if (w.next > 999999) return {0x11, 0};
        const unsigned p = place_of(0);
        if (p == 32) return {0x10, 0};
        w.number[p] = w.next;
        return {0x00, w.next++};
    }

    // The refusals of read and write, and the lock at first access; 0x00 with the place where the access is granted.
    Answer access(std::uint64_t txn, unsigned o) {
        if (o > 31) return {0x02, 0};
        if (!given_out(txn)) return {0x03, 0};
        const unsigned p = place_of(txn);
        if (p == 32) return {0x04, status(txn)};
        if (w.prepared[p]) return {0x05, 0};
        const std::uint64_t holder = w.holder[o];
        if (has(w.accessed[p], o)) {
            if (holder != txn) return {0x06, undo(p)};
            return {0x00, p};
        }
        if (holder != 0) {
            if (txn < holder) return {0x07, holder};
            undo(p);
            return {0x08, holder};
        }
        const unsigned length = static_cast<unsigned>(w.saved[o] + w.queued[o]);
        std::uint64_t writer = w.stable_writer[o];
        w.working[o] = w.stable_value[o];
        if (length) {
            writer = w.chain_writer[o][length - 1];
            w.working[o] = w.chain_value[o][length - 1];
        }
        w.holder[o] = txn;
        w.accessed[p] |= std::uint64_t{1} << o;
        if (writer != 0) {
            const unsigned on = place_of(writer);
            if (on < 32) w.depends[p] |= std::uint64_t{1} << on;
        }
        return {0x00, p};
    }

    Answer read(std::uint64_t txn, unsigned o) {
        const Answer a = access(txn, o);
        return a.number ? a : Answer{0x00, w.working[o]};
    }

    Answer write(std::uint64_t txn, unsigned o, std::uint64_t value) {
        const Answer a = access(txn, o);
        if (a.number) return a;
        w.working[o] = value;
        w.written[a.value] |= std::uint64_t{1} << o;
        return {0x00, 0};
    }

    Answer prepare(std::uint64_t txn, unsigned o) {
        if (o > 31) return {0x02, 0};
        if (!given_out(txn)) return {0x03, 0};
        const unsigned p = place_of(txn);
        if (p == 32) return {0x04, status(txn)};
        if (!has(w.accessed[p], o)) return {0x09, 0};
        if (has(w.prepared[p], o)) return {0x0a, 0};
        if (w.holder[o] != txn) return {0x06, undo(p)};
        if (has(w.written[p], o)) {
            const unsigned length = static_cast<unsigned>(w.saved[o] + w.queued[o]);
            if (length == 8) return {0x0b, 0};
            w.chain_value[o][length] = w.working[o];
            w.chain_writer[o][length] = txn;
            ++w.queued[o];
        }
        w.holder[o] = w.working[o] = 0;
        w.prepared[p] |= std::uint64_t{1} << o;
        return {0x00, 0};
    }

    Answer save(unsigned o) {
        if (o > 31) return {0x02, 0};
        const std::uint64_t queued = w.queued[o];
        w.saved[o] += queued;
        w.queued[o] = 0;
        return {0x00, queued};
    }

    // The lowest written object that has no entry of the transaction, among its saved ones or among all; 32 where none.
    unsigned lacking(std::uint64_t txn, unsigned p, bool among_all) const {
        for (std::uint64_t left = w.written[p]; left; left &= left - 1) {
            const unsigned o = lowest(left);
            const unsigned length = static_cast<unsigned>(w.saved[o] + (among_all ? w.queued[o] : 0));
            unsigned j = 0;
            while (j < length && w.chain_writer[o][j] != txn) ++j;
            if (j == length) return o;
        }
        return 32;
    }

    Answer commit(std::uint64_t txn) {
        if (!given_out(txn)) return {0x03, 0};
        const unsigned p = place_of(txn);
        if (p == 32) return {0x04, status(txn)};
        if (w.accessed[p] != w.prepared[p]) return {0x0c, lowest(w.accessed[p] & ~w.prepared[p])};
        if (lacking(txn, p, true) < 32) return {0x06, undo(p)};
        if (const unsigned o = lacking(txn, p, false); o < 32) return {0x0d, o};
        if (w.depends[p]) {
            std::uint64_t least = ~std::uint64_t{0};
            for (std::uint64_t left = w.depends[p]; left; left &= left - 1)
                if (w.number[lowest(left)] < least) least = w.number[lowest(left)];
            return {0x0e, least};
        }
        if (w.log_count == 512) return {0x0f, 0};
        w.log[w.log_count++] = txn;
        for (unsigned q = 0; q < 32; ++q) w.depends[q] &= ~(std::uint64_t{1} << p);
        free_place(p);
        return {0x00, w.log_count};
    }

    Answer abort(std::uint64_t txn) {
        if (!given_out(txn)) return {0x03, 0};
        const unsigned p = place_of(txn);
        return p == 32 ? Answer{0x04, status(txn)} : Answer{0x00, undo(p)};
    }

    std::uint64_t settle(unsigned o) {
        // what is saved and not live is logged
        unsigned gone = 0;
        while (gone < w.saved[o] && place_of(w.chain_writer[o][gone]) == 32) ++gone;
        if (gone == 0) return 0;
        w.stable_value[o] = w.chain_value[o][gone - 1];
        w.stable_writer[o] = w.chain_writer[o][gone - 1];
        w.stable_number[o] = log_number(w.stable_writer[o]);
        std::memmove(w.chain_value[o], w.chain_value[o] + gone, (8 - gone) * 8);
        std::memmove(w.chain_writer[o], w.chain_writer[o] + gone, (8 - gone) * 8);
        clear_from(o, 8 - gone);
        w.saved[o] -= gone;
        return gone;
    }

    void keep_saved(unsigned o, std::uint64_t saved) {
        w.holder[o] = w.working[o] = 0;
        w.saved[o] = saved;
        w.queued[o] = 0;
        clear_from(o, static_cast<unsigned>(saved));
    }

    Answer crash(std::uint64_t set) {
        if (set >> 32) return {0x02, 0};
        std::uint64_t dropped = 0;
        for (std::uint64_t left = set; left; left &= left - 1) {
            const unsigned o = lowest(left);
            dropped += w.queued[o];
            keep_saved(o, w.saved[o]);
        }
        return {0x00, dropped};
    }

    Answer restart() {
        std::uint64_t live = 0;
        for (unsigned o = 0; o < 32; ++o) {
            settle(o);
            keep_saved(o, 0);
        }
        for (unsigned p = 0; p < 32; ++p) {
            live += w.number[p] != 0;
            free_place(p);
        }
        return {0x00, live};
    }

    Words& w;
};

// ---- frames

// The digits' values, 0xff for every other character.
struct DigitValues {
    std::uint8_t of[256];
    constexpr DigitValues() : of() {
        for (int c = 0; c < 256; ++c) of[c] = 0xff;
        for (int d = 0; d < 10; ++d) of['0' + d] = static_cast<std::uint8_t>(d);
        for (int d = 0; d < 6; ++d) of['a' + d] = static_cast<std::uint8_t>(10 + d);
    }
};
inline constexpr DigitValues kDigits;

// Whether 29 bytes are a frame, and the call that it is.
inline bool read_frame(const char* line, Call& c) {
    std::uint8_t wrong = 0;
    const auto number = [&](int from, int end) {
        std::uint64_t n = 0;
        for (int i = from; i < end; ++i) {
            const std::uint8_t digit = kDigits.of[static_cast<unsigned char>(line[i])];
            wrong |= digit;
            n = n * 16 + digit;
        }
        return n;
    };
    const std::uint64_t kind = number(0, 2), txn = number(2, 10), object = number(10, 12), value = number(12, 28);
    if (wrong & 0xf0 || line[28] != '\n' || kind - 1 >= 12) return false;
    static constexpr std::uint8_t uses[13] = {0, 0, 3, 7, 3, 2, 1, 1, 2, 4, 0, 1, 2};
    const unsigned fields = uses[kind];
    if ((txn && !(fields & 1)) || (object && !(fields & 2)) || (value && !(fields & 4))) return false;
    c = {static_cast<std::uint8_t>(kind), static_cast<std::uint8_t>(object), static_cast<std::uint32_t>(txn), value};
    return true;
}

inline void write_answer(char* to, Answer a) {
    static constexpr char digits[] = "0123456789abcdef";
    to[0] = digits[a.number >> 4];
    to[1] = digits[a.number & 15];
    for (int i = 0; i < 16; ++i) to[2 + i] = digits[a.value >> (60 - 4 * i) & 15];
    to[18] = '\n';
}

}  // namespace fast
