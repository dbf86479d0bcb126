// mv.hpp: the transaction core for a host, in C++17. A thin layer over mv.h, which says what each call needs, answers and
// leaves: the three kinds of number are three types, an answer's numbers have names, and the tables are a value of their
// own or memory that the host lends. Nothing here allocates or throws.
//
//     mv::Tables tables;                            // fresh
//     const mv::Answer started = tables.start();
//     if (!started.done()) return report(started);  // started.name() is "32 live", say
//     const mv::Txn txn = started.txn();
//     tables.write(txn, mv::Obj{5}, 100);
#pragma once

#include <array>
#include <cstddef>
#include <cstdint>
#include <string_view>

#include "mv.h"

namespace mv {

// A number of one kind: it converts neither to a number of another kind nor, unasked, from a plain one.
template <class Kind, class Width>
struct Numbered {
    Width num = 0;
    constexpr Numbered() noexcept = default;
    explicit constexpr Numbered(Width number) noexcept : num(number) {}
    friend constexpr bool operator==(Numbered a, Numbered b) noexcept { return a.num == b.num; }
    friend constexpr bool operator!=(Numbered a, Numbered b) noexcept { return a.num != b.num; }
    friend constexpr bool operator<(Numbered a, Numbered b) noexcept { return a.num < b.num; }
};

// Transaction, object and log numbers; 0 names no transaction and no record, objects are numbered from 0.
using Txn = Numbered<struct TxnKind, std::uint32_t>;
using Obj = Numbered<struct ObjKind, std::uint8_t>;
using Lsn = Numbered<struct LsnKind, std::uint64_t>;

// A set of objects, for a crash.
struct ObjSet {
    std::uint64_t bits = 0;
    constexpr ObjSet() noexcept = default;
    explicit constexpr ObjSet(std::uint64_t set) noexcept : bits(set) {}
    // The set with an object; an object that does not exist changes nothing.
    constexpr ObjSet with(Obj object) const noexcept {
        return ObjSet{object.num < MV_OBJECTS ? bits | std::uint64_t{1} << object.num : bits};
    }
    constexpr bool has(Obj object) const noexcept { return object.num < MV_OBJECTS && (bits >> object.num & 1) != 0; }
};

// The answer numbers; mv.h says what value comes with each.
enum class Number : std::uint64_t {
    done = MV_DONE,
    unsound = MV_UNSOUND,
    no_such_object = MV_NO_SUCH_OBJECT,
    never_given_out = MV_NEVER_GIVEN_OUT,
    no_longer_live = MV_NO_LONGER_LIVE,
    after_a_prepare = MV_AFTER_A_PREPARE,
    lost = MV_LOST,
    wait = MV_WAIT,
    died = MV_DIED,
    not_accessed = MV_NOT_ACCESSED,
    prepared_before = MV_PREPARED_BEFORE,
    chain_full = MV_CHAIN_FULL,
    unprepared = MV_UNPREPARED,
    unsaved = MV_UNSAVED,
    dependency_live = MV_DEPENDENCY_LIVE,
    log_full = MV_LOG_FULL,
    places_full = MV_PLACES_FULL,
    numbers_spent = MV_NUMBERS_SPENT,
    bad_frame = MV_BAD_FRAME,
};

// The number in the scope paper's words, for a log or a message.
constexpr std::string_view name(Number number) noexcept {
    switch (number) {
        case Number::done: return "done";
        case Number::unsound: return "unsound tables";
        case Number::no_such_object: return "no such object";
        case Number::never_given_out: return "number never given out";
        case Number::no_longer_live: return "no longer live";
        case Number::after_a_prepare: return "read or write after a prepare";
        case Number::lost: return "lost";
        case Number::wait: return "wait";
        case Number::died: return "died";
        case Number::not_accessed: return "prepare of an object not accessed";
        case Number::prepared_before: return "prepared before";
        case Number::chain_full: return "chain holds 8";
        case Number::unprepared: return "an object is unprepared";
        case Number::unsaved: return "a written object is unsaved";
        case Number::dependency_live: return "a dependency is live";
        case Number::log_full: return "log holds 512";
        case Number::places_full: return "32 live";
        case Number::numbers_spent: return "numbers spent";
        case Number::bad_frame: return "bad frame";
    }
    return "no answer number";
}

// What status gives, and what comes with no_longer_live.
enum class Status : std::uint64_t { live = 1, committed = 2, aborted = 3 };

// A call's answer. The value has one meaning for each call and number; the functions name it.
class Answer {
public:
    constexpr Answer() noexcept = default;
    constexpr explicit Answer(mv_answer raw) noexcept : number_(static_cast<Number>(raw.number)), value_(raw.value) {}

    constexpr Number number() const noexcept { return number_; }
    constexpr std::uint64_t value() const noexcept { return value_; }
    constexpr bool done() const noexcept { return number_ == Number::done; }
    // The transaction named is undone, and all that depended on it: lost and died, the two refusals that change tables.
    constexpr bool undone() const noexcept { return number_ == Number::lost || number_ == Number::died; }
    constexpr std::string_view name() const noexcept { return mv::name(number_); }

    // Of start: the number given. Of wait and died: the holder. Of dependency_live: the one to commit first.
    constexpr Txn txn() const noexcept { return Txn{static_cast<std::uint32_t>(value_)}; }
    // Of commit: the record's number.
    constexpr Lsn lsn() const noexcept { return Lsn{value_}; }
    // Of unprepared and unsaved: the lowest such object.
    constexpr Obj obj() const noexcept { return Obj{static_cast<std::uint8_t>(value_)}; }
    // Of status and no_longer_live.
    constexpr Status status() const noexcept { return static_cast<Status>(value_); }
    // Of save, settle, crash, abort, restart, lost: how many entries or transactions. Of a run: how many lines.
    constexpr std::uint64_t count() const noexcept { return value_; }

    friend constexpr bool operator==(Answer a, Answer b) noexcept {
        return a.number_ == b.number_ && a.value_ == b.value_;
    }
    friend constexpr bool operator!=(Answer a, Answer b) noexcept { return !(a == b); }

private:
    Number number_ = Number::unsound;
    std::uint64_t value_ = 0;
};

// How many words the tables are.
inline constexpr std::size_t kWords = MV_WORDS;

// The calls, for whatever holds words: its data() is the first of them, its size() how many there are.
template <class Words>
class Calls {
public:
    // Each comment says what a done call gives and what may refuse it; a call on words that are not sound gets unsound, and
    // every refusal but lost and died leaves all words as they were.

    // Makes the words fresh, whatever they held. Only a wrong count of words is refused.
    Answer fresh() noexcept { return Answer{mv_fresh(at(), count())}; }

    // A new transaction: txn(). Refused: numbers_spent, places_full.
    Answer start() noexcept { return Answer{mv_start(at(), count())}; }

    // The object's value, with its lock and a dependency on whoever wrote the latest version, if that one is live. Refused:
    // no_such_object, never_given_out, no_longer_live, after_a_prepare, lost, wait, died.
    Answer read(Txn txn, Obj object) noexcept { return Answer{mv_read(at(), count(), txn.num, object.num)}; }

    // Another value, with the lock and the dependency of a read, read or not. Refused: as read.
    Answer write(Txn txn, Obj object, std::uint64_t value) noexcept {
        return Answer{mv_write(at(), count(), txn.num, object.num, value)};
    }

    // Frees the lock, and queues what was written. Refused: no_such_object, never_given_out, no_longer_live, not_accessed,
    // prepared_before, lost, chain_full.
    Answer prepare(Txn txn, Obj object) noexcept { return Answer{mv_prepare(at(), count(), txn.num, object.num)}; }

    // Says that what is queued is on storage: count(). Refused: no_such_object.
    Answer save(Obj object) noexcept { return Answer{mv_save(at(), count(), object.num)}; }

    // A log record: lsn(). Refused: never_given_out, no_longer_live, unprepared, lost, unsaved, dependency_live, log_full.
    Answer commit(Txn txn) noexcept { return Answer{mv_commit(at(), count(), txn.num)}; }

    // Undoes the transaction with all that depend on it: count(). Refused: never_given_out, no_longer_live.
    Answer abort(Txn txn) noexcept { return Answer{mv_abort(at(), count(), txn.num)}; }

    // Moves committed versions out of the object's chain: count(). Refused: no_such_object.
    Answer settle(Obj object) noexcept { return Answer{mv_settle(at(), count(), object.num)}; }

    // What a stop of these objects' server loses, locks and queued versions: count(). Refused: no_such_object.
    Answer crash(ObjSet objects) noexcept { return Answer{mv_crash(at(), count(), objects.bits)}; }

    // What a stop of the whole host leaves, the durable parts, settled: count() of those that were live.
    Answer restart() noexcept { return Answer{mv_restart(at(), count())}; }

    // What became of a transaction: status(). Refused: never_given_out.
    Answer status(Txn txn) noexcept { return Answer{mv_status(at(), count(), txn.num)}; }

    // The object's stable value. Refused: no_such_object.
    Answer look(Obj object) noexcept { return Answer{mv_look(at(), count(), object.num)}; }

    // One line with its line feed, answered as its call is. Refused: bad_frame, before all else.
    Answer line(std::string_view text) noexcept { return Answer{mv_line(at(), count(), bytes(text), text.size())}; }

    // Many lines, with one test of the words: count() of those answered. The room has MV_ANSWER_LINE bytes for each answer
    // line, and takes as many as fit.
    Answer run(std::string_view calls, char* room, std::size_t room_size) noexcept {
        std::uint8_t none = 0;
        std::uint8_t* const to = room ? reinterpret_cast<std::uint8_t*>(room) : &none;
        return Answer{mv_run(at(), count(), bytes(calls), calls.size(), to, room ? room_size : 0)};
    }

private:
    std::uint64_t* at() noexcept { return static_cast<Words*>(this)->data(); }
    std::size_t count() noexcept { return static_cast<Words*>(this)->size(); }

    // An empty text may have no address; a pointer that crosses must have one.
    static const std::uint8_t* bytes(std::string_view text) noexcept {
        static constexpr std::uint8_t none = 0;
        return text.data() ? reinterpret_cast<const std::uint8_t*>(text.data()) : &none;
    }
};

// Tables with words of their own, fresh from the first; a copy is a copy of the words.
class Tables : public Calls<Tables> {
public:
    Tables() noexcept { fresh(); }

    std::uint64_t* data() noexcept { return words_.data(); }
    const std::uint64_t* data() const noexcept { return words_.data(); }
    static constexpr std::size_t size() noexcept { return kWords; }

private:
    std::array<std::uint64_t, kWords> words_{};
};

// Tables in memory that the host lends, as they are found there; the memory outlives them.
class LentTables : public Calls<LentTables> {
public:
    LentTables(std::uint64_t* words, std::size_t count) noexcept : words_(words), count_(count) {}
    explicit LentTables(std::array<std::uint64_t, kWords>& words) noexcept : LentTables(words.data(), kWords) {}

    std::uint64_t* data() noexcept { return words_; }
    std::size_t size() const noexcept { return count_; }

private:
    std::uint64_t* words_;
    std::size_t count_;
};

}  // namespace mv
