// Document 01 once more, in plain C++: structures and no words, nothing shared with the core. It is written from the paper
// to be read beside it, not to be fast. The differential tests hold the core against it.
#pragma once

#include <algorithm>
#include <array>
#include <cstdint>
#include <optional>
#include <set>
#include <string>
#include <string_view>
#include <vector>

namespace model {

constexpr int kObjects = 32;
constexpr std::size_t kLive = 32;
constexpr std::size_t kChain = 8;
constexpr std::size_t kLog = 512;
constexpr std::uint32_t kLastNumber = 999999;

struct Answer {
    std::uint8_t number = 0;
    std::uint64_t value = 0;
    bool operator==(const Answer& other) const { return number == other.number && value == other.value; }
};

struct Call {
    int kind = 0;  // 1 to 12, as the frames number them
    std::uint32_t txn = 0;
    std::uint8_t object = 0;
    std::uint64_t value = 0;
};

struct Entry {
    std::uint64_t value;
    std::uint32_t writer;
};

struct Object {
    std::uint64_t stable_value = 0;
    std::uint32_t stable_writer = 0;
    std::uint32_t stable_number = 0;
    std::uint32_t holder = 0;  // 0: nobody
    std::uint64_t working = 0;
    std::vector<Entry> chain;
    std::size_t saved = 0;  // the first so many entries of the chain

    Entry latest() const { return chain.empty() ? Entry{stable_value, stable_writer} : chain.back(); }
};

struct Transaction {
    std::uint32_t number = 0;
    std::set<int> accessed, written, prepared;
    std::set<std::uint32_t> depends;  // numbers of live transactions
};

class Tables {
public:
    std::uint32_t next = 1;
    std::vector<std::uint32_t> log;
    std::array<std::optional<Transaction>, kLive> places;
    std::array<Object, kObjects> objects;

    Answer call(const Call& c) {
        switch (c.kind) {
            case 1: return start();
            case 2: return read(c.txn, c.object);
            case 3: return write(c.txn, c.object, c.value);
            case 4: return prepare(c.txn, c.object);
            case 5: return save(c.object);
            case 6: return commit(c.txn);
            case 7: return abort_call(c.txn);
            case 8: return settle_call(c.object);
            case 9: return crash(c.value);
            case 10: return restart();
            case 11: return status_call(c.txn);
            default: return look(c.object);
        }
    }

    Transaction* live(std::uint32_t number) {
        for (auto& place : places)
            if (place && place->number == number) return &*place;
        return nullptr;
    }

    bool logged(std::uint32_t number) const { return std::find(log.begin(), log.end(), number) != log.end(); }

    std::uint32_t log_number(std::uint32_t number) const {
        return static_cast<std::uint32_t>(std::find(log.begin(), log.end(), number) - log.begin()) + 1;
    }

    // 1 live, 2 committed, 3 aborted
    std::uint64_t status(std::uint32_t number) { return live(number) ? 1 : logged(number) ? 2 : 3; }

private:
    bool never_given_out(std::uint32_t number) const { return number == 0 || number >= next; }

    static bool wrote_one_of(std::uint32_t number, const std::vector<Entry>& chain, std::size_t count) {
        return std::any_of(chain.begin(), chain.begin() + static_cast<std::ptrdiff_t>(count),
                           [&](const Entry& e) { return e.writer == number; });
    }

    // The transaction and all that depend on it, directly or through others, lose locks, entries and places.
    std::uint64_t undo(std::uint32_t number) {
        std::set<std::uint32_t> fallen{number};
        for (bool grew = true; grew;) {
            grew = false;
            for (const auto& place : places) {
                if (!place || fallen.count(place->number)) continue;
                for (std::uint32_t on : place->depends)
                    if (fallen.count(on)) {
                        fallen.insert(place->number);
                        grew = true;
                        break;
                    }
            }
        }
        for (Object& object : objects) {
            if (fallen.count(object.holder)) object.holder = 0, object.working = 0;
            std::vector<Entry> kept;
            std::size_t saved = 0;
            for (std::size_t i = 0; i < object.chain.size(); ++i) {
                if (fallen.count(object.chain[i].writer)) continue;
                kept.push_back(object.chain[i]);
                if (i < object.saved) ++saved;
            }
            object.chain = kept;
            object.saved = saved;
        }
        for (auto& place : places)
            if (place && fallen.count(place->number)) place.reset();
        return fallen.size();
    }

    Answer start() {
        if (next > kLastNumber) return {0x11, 0};
        for (auto& place : places)
            if (!place) {
                place.emplace();
                place->number = next;
                return {0x00, next++};
            }
        return {0x10, 0};
    }

    // What read and write share: the refusals, and the lock with its dependency at first access.
    std::optional<Answer> access(std::uint32_t number, std::uint8_t o) {
        if (o >= kObjects) return Answer{0x02, 0};
        if (never_given_out(number)) return Answer{0x03, 0};
        Transaction* t = live(number);
        if (!t) return Answer{0x04, status(number)};
        if (!t->prepared.empty()) return Answer{0x05, 0};
        Object& object = objects[o];
        if (t->accessed.count(o)) {
            if (object.holder != number) return Answer{0x06, undo(number)};
            return std::nullopt;
        }
        if (object.holder != 0) {
            const std::uint32_t holder = object.holder;
            if (number < holder) return Answer{0x07, holder};
            undo(number);
            return Answer{0x08, holder};
        }
        const Entry latest = object.latest();
        object.holder = number;
        object.working = latest.value;
        t->accessed.insert(o);
        if (latest.writer != 0 && live(latest.writer)) t->depends.insert(latest.writer);
        return std::nullopt;
    }

    Answer read(std::uint32_t number, std::uint8_t o) {
        if (auto refused = access(number, o)) return *refused;
        return {0x00, objects[o].working};
    }

    Answer write(std::uint32_t number, std::uint8_t o, std::uint64_t value) {
        if (auto refused = access(number, o)) return *refused;
        objects[o].working = value;
        live(number)->written.insert(o);
        return {0x00, 0};
    }

    Answer prepare(std::uint32_t number, std::uint8_t o) {
        if (o >= kObjects) return {0x02, 0};
        if (never_given_out(number)) return {0x03, 0};
        Transaction* t = live(number);
        if (!t) return {0x04, status(number)};
        if (!t->accessed.count(o)) return {0x09, 0};
        if (t->prepared.count(o)) return {0x0a, 0};
        Object& object = objects[o];
        if (object.holder != number) return {0x06, undo(number)};
        if (object.chain.size() >= kChain && t->written.count(o)) return {0x0b, 0};
        if (t->written.count(o)) object.chain.push_back({object.working, number});
        object.holder = 0;
        object.working = 0;
        t->prepared.insert(o);
        return {0x00, 0};
    }

    Answer save(std::uint8_t o) {
        if (o >= kObjects) return {0x02, 0};
        Object& object = objects[o];
        const std::uint64_t queued = object.chain.size() - object.saved;
        object.saved = object.chain.size();
        return {0x00, queued};
    }

    Answer commit(std::uint32_t number) {
        if (never_given_out(number)) return {0x03, 0};
        Transaction* t = live(number);
        if (!t) return {0x04, status(number)};
        for (int o : t->accessed)
            if (!t->prepared.count(o)) return {0x0c, static_cast<std::uint64_t>(o)};
        for (int o : t->written)
            if (!wrote_one_of(number, objects[o].chain, objects[o].chain.size())) return {0x06, undo(number)};
        for (int o : t->written)
            if (!wrote_one_of(number, objects[o].chain, objects[o].saved)) return {0x0d, static_cast<std::uint64_t>(o)};
        if (!t->depends.empty()) return {0x0e, *t->depends.begin()};
        if (log.size() >= kLog) return {0x0f, 0};
        log.push_back(number);
        for (auto& place : places) {
            if (!place) continue;
            if (place->number == number) place.reset();
            else place->depends.erase(number);
        }
        return {0x00, log.size()};
    }

    Answer abort_call(std::uint32_t number) {
        if (never_given_out(number)) return {0x03, 0};
        if (!live(number)) return {0x04, status(number)};
        return {0x00, undo(number)};
    }

    std::uint64_t settle(Object& object) {
        std::size_t gone = 0;
        while (gone < object.saved && logged(object.chain[gone].writer)) ++gone;
        if (gone == 0) return 0;
        const Entry last = object.chain[gone - 1];
        object.stable_value = last.value;
        object.stable_writer = last.writer;
        object.stable_number = log_number(last.writer);
        object.chain.erase(object.chain.begin(), object.chain.begin() + static_cast<std::ptrdiff_t>(gone));
        object.saved -= gone;
        return gone;
    }

    Answer settle_call(std::uint8_t o) {
        if (o >= kObjects) return {0x02, 0};
        return {0x00, settle(objects[o])};
    }

    Answer crash(std::uint64_t set) {
        if (set >> 32) return {0x02, 0};
        std::uint64_t dropped = 0;
        for (int o = 0; o < kObjects; ++o) {
            if (!(set >> o & 1)) continue;
            Object& object = objects[o];
            object.holder = 0;
            object.working = 0;
            dropped += object.chain.size() - object.saved;
            object.chain.resize(object.saved);
        }
        return {0x00, dropped};
    }

    Answer restart() {
        std::uint64_t were_live = 0;
        for (auto& place : places)
            if (place) ++were_live, place.reset();
        for (Object& object : objects) {
            object.holder = 0;
            object.working = 0;
            object.chain.resize(object.saved);
            std::vector<Entry> kept;
            for (const Entry& e : object.chain)
                if (logged(e.writer)) kept.push_back(e);
            object.chain = kept;
            object.saved = kept.size();
            settle(object);
        }
        return {0x00, were_live};
    }

    Answer status_call(std::uint32_t number) {
        if (never_given_out(number)) return {0x03, 0};
        return {0x00, status(number)};
    }

    Answer look(std::uint8_t o) {
        if (o >= kObjects) return {0x02, 0};
        return {0x00, objects[o].stable_value};
    }
};

// ---- frames

// The call of a line (its line feed included), or nothing where it is a bad frame.
inline std::optional<Call> read_frame(std::string_view line) {
    if (line.size() != 29 || line[28] != '\n') return std::nullopt;
    auto number = [&](std::size_t from, std::size_t count) -> std::optional<std::uint64_t> {
        std::uint64_t n = 0;
        for (std::size_t i = from; i < from + count; ++i) {
            const char c = line[i];
            if (c >= '0' && c <= '9') n = n * 16 + static_cast<std::uint64_t>(c - '0');
            else if (c >= 'a' && c <= 'f') n = n * 16 + static_cast<std::uint64_t>(c - 'a' + 10);
            else return std::nullopt;
        }
        return n;
    };
    const auto kind = number(0, 2), txn = number(2, 8), object = number(10, 2), value = number(12, 16);
    if (!kind || !txn || !object || !value) return std::nullopt;
    const std::string_view with_txn = "\x02\x03\x04\x06\x07\x0b", with_object = "\x02\x03\x04\x05\x08\x0c", with_value = "\x03\x09";
    if (*kind < 1 || *kind > 12) return std::nullopt;
    const char k = static_cast<char>(*kind);
    if (*txn && with_txn.find(k) == with_txn.npos) return std::nullopt;
    if (*object && with_object.find(k) == with_object.npos) return std::nullopt;
    if (*value && with_value.find(k) == with_value.npos) return std::nullopt;
    return Call{static_cast<int>(*kind), static_cast<std::uint32_t>(*txn), static_cast<std::uint8_t>(*object), *value};
}

inline std::string hex(std::uint64_t n, int digits) {
    std::string s(static_cast<std::size_t>(digits), '0');
    for (int i = digits - 1; i >= 0; --i, n /= 16) s[static_cast<std::size_t>(i)] = "0123456789abcdef"[n % 16];
    return s;
}

inline std::string write_frame(const Call& c) {
    return hex(static_cast<std::uint64_t>(c.kind), 2) + hex(c.txn, 8) + hex(c.object, 2) + hex(c.value, 16) + "\n";
}

inline std::string write_answer(const Answer& a) { return hex(a.number, 2) + hex(a.value, 16) + "\n"; }

// What a line gives: a bad frame 12 before all else.
inline Answer line(Tables& tables, std::string_view text) {
    const auto call = read_frame(text);
    return call ? tables.call(*call) : Answer{0x12, 0};
}

}  // namespace model
