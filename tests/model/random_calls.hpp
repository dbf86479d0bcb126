// Random calls that reach every answer: mostly such as a host would make next, by a look at the model's tables, with a share
// of senseless ones; and random lines, whole and damaged.
#pragma once

#include <cstdint>
#include <random>
#include <string>
#include <vector>

#include "model.hpp"

namespace model {

class Dice {
public:
    explicit Dice(std::uint64_t seed) : engine_(seed) {}
    std::uint64_t any() { return engine_(); }
    std::uint64_t below(std::uint64_t n) { return engine_() % n; }
    bool one_in(std::uint64_t n) { return below(n) == 0; }

private:
    std::mt19937_64 engine_;
};

// How a history is made: how many objects are in use, how often a call is senseless, and how keen it is to commit.
struct Manner {
    std::uint64_t objects;
    std::uint64_t senseless_one_in;
    std::uint64_t stop_one_in;  // crashes and restarts
    bool keeps_starting;        // fills the places
    bool goes_for_the_log;      // drives transactions to their commit
};

inline Manner any_manner(Dice& dice) {
    static constexpr Manner manners[] = {
        {32, 3, 20, false, false}, {2, 8, 60, false, false},   {1, 12, 200, false, false}, {4, 40, 400, true, false},
        {8, 30, 900, false, true}, {3, 200, 3000, false, true}, {32, 200, 3000, false, true},
    };
    return manners[dice.below(std::size(manners))];
}

class Caller {
public:
    Caller(Dice& dice, Manner manner) : dice_(dice), manner_(manner) {}

    Call next(const Tables& t) {
        if (dice_.one_in(manner_.senseless_one_in)) return senseless(t);
        if (dice_.one_in(manner_.stop_one_in)) {
            if (dice_.one_in(4)) return {10, 0, 0, 0};
            return {9, 0, 0, dice_.any() & dice_.any() & 0xffffffff};
        }
        std::vector<const Transaction*> live;
        for (const auto& place : t.places)
            if (place) live.push_back(&*place);
        const std::size_t wanted = manner_.keeps_starting ? kLive + 1 : manner_.goes_for_the_log ? 3 : 8;
        if (live.size() < wanted && (live.empty() || dice_.one_in(4))) return {1, 0, 0, 0};
        if (live.empty()) return {1, 0, 0, 0};
        const Transaction& x = *live[manner_.goes_for_the_log && !dice_.one_in(3) ? 0 : dice_.below(live.size())];
        switch (dice_.below(manner_.goes_for_the_log ? 10 : 16)) {
            case 0: return {2, x.number, object(), 0};
            case 1: return {3, x.number, object(), value()};
            case 2: return {5, 0, object(), 0};
            case 3: return {8, 0, object(), 0};
            case 4: case 5: case 6: case 7: case 8: return towards_commit(t, x);
            case 9: return {12, 0, object(), 0};
            case 10: return {7, x.number, 0, 0};
            case 11: return {11, any_number(t), 0, 0};
            case 12: return {4, x.number, object(), 0};
            case 13: return {6, x.number, 0, 0};
            default: return {static_cast<int>(2 + dice_.below(2)), x.number, object(), 0};
        }
    }

    // Any kind with its fields, in and out of range.
    Call senseless(const Tables& t) {
        Call c;
        c.kind = static_cast<int>(1 + dice_.below(12));
        const bool txn = c.kind == 2 || c.kind == 3 || c.kind == 4 || c.kind == 6 || c.kind == 7 || c.kind == 11;
        const bool object = c.kind == 2 || c.kind == 3 || c.kind == 4 || c.kind == 5 || c.kind == 8 || c.kind == 12;
        if (txn) c.txn = any_number(t);
        if (object) c.object = static_cast<std::uint8_t>(dice_.one_in(4) ? dice_.below(256) : dice_.below(34));
        if (c.kind == 3) c.value = dice_.any();
        if (c.kind == 9) c.value = dice_.one_in(3) ? dice_.any() : dice_.any() & dice_.any() & 0x1ffffffff;
        return c;
    }

private:
    std::uint8_t object() { return static_cast<std::uint8_t>(dice_.below(manner_.objects)); }
    std::uint64_t value() { return dice_.one_in(2) ? dice_.below(1000) : dice_.any(); }

    std::uint32_t any_number(const Tables& t) {
        switch (dice_.below(4)) {
            case 0: return static_cast<std::uint32_t>(dice_.below(t.next + 2));
            case 1: return t.next - static_cast<std::uint32_t>(dice_.below(std::min<std::uint64_t>(t.next, 40)));
            case 2: return t.log.empty() ? 0 : t.log[dice_.below(t.log.size())];
            default: return dice_.one_in(6) ? static_cast<std::uint32_t>(dice_.any()) : t.next;
        }
    }

    // What the transaction lacks for its commit, as a host would see it.
    Call towards_commit(const Tables& t, const Transaction& x) {
        if (x.accessed.empty() && !dice_.one_in(8)) return {3, x.number, object(), value()};
        for (int o : x.accessed)
            if (!x.prepared.count(o)) return {4, x.number, static_cast<std::uint8_t>(o), 0};
        for (int o : x.written) {
            const Object& object = t.objects[static_cast<std::size_t>(o)];
            if (object.chain.size() > object.saved && !dice_.one_in(8)) return {5, 0, static_cast<std::uint8_t>(o), 0};
        }
        if (!x.depends.empty() && dice_.one_in(2)) return {6, *x.depends.begin(), 0, 0};
        return {6, x.number, 0, 0};
    }

    Dice& dice_;
    Manner manner_;
};

// A call's line, one time in five with a fault: another length, character, case, kind, a nonzero unused field, another end.
inline std::string random_line(Dice& dice, const Call& call) {
    std::string line = write_frame(call);
    if (!dice.one_in(5)) return line;
    switch (dice.below(8)) {
        case 0: line.erase(dice.below(line.size()), 1); break;
        case 1: line.insert(dice.below(line.size()), 1, "0123456789abcdef"[dice.below(16)]); break;
        case 2: line[dice.below(line.size())] = static_cast<char>(dice.any()); break;
        case 3: line[dice.below(28)] = "ABCDEF gG:/`@"[dice.below(13)]; break;
        case 4: line[1] = "0123456789abcdef"[dice.below(16)], line[0] = "01f"[dice.below(3)]; break;
        case 5: line[dice.below(28)] = "0123456789abcdef"[dice.below(16)]; break;
        case 6: line[28] = '\r', line += '\n'; break;
        default: line = std::string(dice.below(60), static_cast<char>('0' + dice.below(10))) + "\n";
    }
    return line;
}

}  // namespace model
