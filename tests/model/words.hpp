// The lent words as docs/LAYOUT.md lays them out, field by field and unread: the model's own test of whether they hold
// sound tables, and the way between them and the model's structures. Nothing here is shared with the core.
#pragma once

#include <algorithm>
#include <array>
#include <cstdint>
#include <vector>

#include "model.hpp"

namespace model {

using Words = std::vector<std::uint64_t>;
constexpr std::size_t kWords = 1410;

// Bit n of a word.
inline bool bit(std::uint64_t set, std::size_t n) { return n < 64 && (set >> n & 1) != 0; }

// The fields of a run of words, whatever they hold.
class Fields {
public:
    explicit Fields(const Words& words) : words_(words) {}

    std::uint64_t next() const { return words_[0]; }
    std::uint64_t log_count() const { return words_[1]; }
    std::uint64_t log(std::size_t i) const { return words_[2 + i]; }
    std::uint64_t number(std::size_t place) const { return words_[514 + place]; }
    std::uint64_t accessed(std::size_t place) const { return words_[546 + place]; }
    std::uint64_t written(std::size_t place) const { return words_[578 + place]; }
    std::uint64_t prepared(std::size_t place) const { return words_[610 + place]; }
    std::uint64_t depends(std::size_t place) const { return words_[642 + place]; }
    std::uint64_t stable_value(std::size_t object) const { return words_[674 + object]; }
    std::uint64_t stable_writer(std::size_t object) const { return words_[706 + object]; }
    std::uint64_t stable_number(std::size_t object) const { return words_[738 + object]; }
    std::uint64_t holder(std::size_t object) const { return words_[770 + object]; }
    std::uint64_t working(std::size_t object) const { return words_[802 + object]; }
    std::uint64_t saved(std::size_t object) const { return words_[834 + object]; }
    std::uint64_t queued(std::size_t object) const { return words_[866 + object]; }
    std::uint64_t value(std::size_t object, std::size_t entry) const { return words_[898 + 8 * object + entry]; }
    std::uint64_t writer(std::size_t object, std::size_t entry) const { return words_[1154 + 8 * object + entry]; }

    // The place of a live transaction, or 32; and its log number, or 0.
    std::size_t place_of(std::uint64_t txn) const {
        for (std::size_t p = 0; p < kLive; ++p)
            if (txn != 0 && number(p) == txn) return p;
        return kLive;
    }
    std::uint64_t log_number(std::uint64_t txn) const {
        for (std::size_t i = 0; i < log_count(); ++i)
            if (log(i) == txn) return i + 1;
        return 0;
    }

private:
    const Words& words_;
};

// "When tables are sound", rule by rule as the paper lists them.
class Soundness {
public:
    explicit Soundness(const Words& words) : size_(words.size()), f_(words) {}

    bool holds() const {
        return size_ == kWords && counts() && log_and_live() && sets() && holders() && chains() && stable() && unused();
    }

private:
    // Fields within their ranges, the sets' among them by the rules on sets below.
    bool counts() const {
        if (f_.next() < 1 || f_.next() > 1000000 || f_.log_count() > kLog) return false;
        for (std::size_t o = 0; o < kObjects; ++o)
            if (f_.saved(o) > kChain || f_.queued(o) > kChain || f_.saved(o) + f_.queued(o) > kChain) return false;
        return true;
    }

    bool given_out(std::uint64_t txn) const { return txn >= 1 && txn < f_.next(); }

    // Log transactions distinct, given out, none live; live numbers distinct, given out.
    bool log_and_live() const {
        std::vector<std::uint64_t> numbers;
        for (std::size_t i = 0; i < f_.log_count(); ++i) numbers.push_back(f_.log(i));
        for (std::size_t p = 0; p < kLive; ++p)
            if (f_.number(p) != 0) numbers.push_back(f_.number(p));
        if (!std::all_of(numbers.begin(), numbers.end(), [&](std::uint64_t n) { return given_out(n); })) return false;
        std::sort(numbers.begin(), numbers.end());
        return std::adjacent_find(numbers.begin(), numbers.end()) == numbers.end();
    }

    // Written and prepared lie within accessed; dependencies are live and never oneself.
    bool sets() const {
        for (std::size_t p = 0; p < kLive; ++p) {
            if (f_.number(p) == 0) continue;
            if (f_.accessed(p) >> 32 || (f_.written(p) & ~f_.accessed(p)) || (f_.prepared(p) & ~f_.accessed(p))) return false;
            for (std::size_t q = 0; q < 64; ++q)
                if (bit(f_.depends(p), q) && (q >= kLive || q == p || f_.number(q) == 0)) return false;
        }
        return true;
    }

    std::size_t length(std::size_t o) const { return f_.saved(o) + f_.queued(o); }

    // The transaction at place p depends on a transaction, if that is live.
    bool depends_if_live(std::size_t p, std::uint64_t on) const {
        const std::size_t q = f_.place_of(on);
        return q == kLive || bit(f_.depends(p), q);
    }

    // A holder is live, has accessed the object and not prepared it; it depends on the chain's last transaction if live.
    bool holders() const {
        for (std::size_t o = 0; o < kObjects; ++o) {
            if (f_.holder(o) == 0) continue;
            const std::size_t p = f_.place_of(f_.holder(o));
            if (p == kLive || !bit(f_.accessed(p), o) || bit(f_.prepared(p), o)) return false;
            if (length(o) > 0 && !depends_if_live(p, f_.writer(o, length(o) - 1))) return false;
        }
        return true;
    }

    // Chain transactions are distinct, each logged, or live with the object in both written and prepared; logged entries
    // come first, are saved, and rise in log number above the stable one; a live entry depends on the one before if live.
    bool chains() const {
        for (std::size_t o = 0; o < kObjects; ++o) {
            std::uint64_t risen = f_.stable_number(o);
            bool live_came = false;
            for (std::size_t j = 0; j < length(o); ++j) {
                const std::uint64_t txn = f_.writer(o, j);
                for (std::size_t k = 0; k < j; ++k)
                    if (f_.writer(o, k) == txn) return false;
                if (const std::uint64_t number = f_.log_number(txn)) {
                    if (live_came || j >= f_.saved(o) || number <= risen) return false;
                    risen = number;
                    continue;
                }
                live_came = true;
                const std::size_t p = f_.place_of(txn);
                if (p == kLive || !bit(f_.written(p), o) || !bit(f_.prepared(p), o)) return false;
                if (j > 0 && !depends_if_live(p, f_.writer(o, j - 1))) return false;
            }
        }
        return true;
    }

    // A stable version is all zeros, or its transaction is the one that the record of its log number names.
    bool stable() const {
        for (std::size_t o = 0; o < kObjects; ++o) {
            const std::uint64_t number = f_.stable_number(o);
            if (number == 0 && (f_.stable_value(o) != 0 || f_.stable_writer(o) != 0)) return false;
            if (number > f_.log_count()) return false;
            if (number != 0 && f_.log(number - 1) != f_.stable_writer(o)) return false;
        }
        return true;
    }

    // Unused places, and the working value of a free object, are zero.
    bool unused() const {
        for (std::size_t i = f_.log_count(); i < kLog; ++i)
            if (f_.log(i) != 0) return false;
        for (std::size_t p = 0; p < kLive; ++p)
            if (f_.number(p) == 0 && (f_.accessed(p) | f_.written(p) | f_.prepared(p) | f_.depends(p))) return false;
        for (std::size_t o = 0; o < kObjects; ++o) {
            if (f_.holder(o) == 0 && f_.working(o) != 0) return false;
            for (std::size_t j = length(o); j < kChain; ++j)
                if (f_.value(o, j) | f_.writer(o, j)) return false;
        }
        return true;
    }

    std::size_t size_;
    Fields f_;
};

inline bool sound(const Words& words) { return Soundness(words).holds(); }

// The model's structures of sound words.
inline Tables unpack(const Words& words) {
    const Fields f(words);
    const auto narrow = [](std::uint64_t n) { return static_cast<std::uint32_t>(n); };
    const auto members = [](std::uint64_t set) {
        std::set<int> s;
        for (int n = 0; n < kObjects; ++n)
            if (bit(set, static_cast<std::size_t>(n))) s.insert(n);
        return s;
    };
    Tables t;
    t.next = narrow(f.next());
    for (std::size_t i = 0; i < f.log_count(); ++i) t.log.push_back(narrow(f.log(i)));
    for (std::size_t p = 0; p < kLive; ++p) {
        if (f.number(p) == 0) continue;
        Transaction& x = t.places[p].emplace();
        x.number = narrow(f.number(p));
        x.accessed = members(f.accessed(p));
        x.written = members(f.written(p));
        x.prepared = members(f.prepared(p));
        for (int q : members(f.depends(p))) x.depends.insert(narrow(f.number(static_cast<std::size_t>(q))));
    }
    for (std::size_t o = 0; o < kObjects; ++o) {
        Object& object = t.objects[o];
        object.stable_value = f.stable_value(o);
        object.stable_writer = narrow(f.stable_writer(o));
        object.stable_number = narrow(f.stable_number(o));
        object.holder = narrow(f.holder(o));
        object.working = f.working(o);
        object.saved = f.saved(o);
        for (std::size_t j = 0; j < f.saved(o) + f.queued(o); ++j)
            object.chain.push_back({f.value(o, j), narrow(f.writer(o, j))});
    }
    return t;
}

// The words of the model's structures.
inline void pack(const Tables& t, Words& words) {
    words.assign(kWords, 0);
    words[0] = t.next;
    words[1] = t.log.size();
    std::copy(t.log.begin(), t.log.end(), words.begin() + 2);
    const auto set_of = [](const std::set<int>& s) {
        std::uint64_t set = 0;
        for (int n : s) set |= std::uint64_t{1} << n;
        return set;
    };
    for (std::size_t p = 0; p < kLive; ++p) {
        if (!t.places[p]) continue;
        const Transaction& x = *t.places[p];
        words[514 + p] = x.number;
        words[546 + p] = set_of(x.accessed);
        words[578 + p] = set_of(x.written);
        words[610 + p] = set_of(x.prepared);
        for (std::size_t q = 0; q < kLive; ++q)
            if (t.places[q] && x.depends.count(t.places[q]->number)) words[642 + p] |= std::uint64_t{1} << q;
    }
    for (std::size_t o = 0; o < kObjects; ++o) {
        const Object& object = t.objects[o];
        words[674 + o] = object.stable_value;
        words[706 + o] = object.stable_writer;
        words[738 + o] = object.stable_number;
        words[770 + o] = object.holder;
        words[802 + o] = object.working;
        words[834 + o] = object.saved;
        words[866 + o] = object.chain.size() - object.saved;
        for (std::size_t j = 0; j < object.chain.size(); ++j) {
            words[898 + 8 * o + j] = object.chain[j].value;
            words[1154 + 8 * o + j] = object.chain[j].writer;
        }
    }
}

}  // namespace model
