// Holds the core against the model, over the C interface: random histories of calls, lines and texts, and tables spoiled in
// one word or several. After every call the answer and all words are compared, refused calls included.
//   differ SEED ROUNDS SECONDS   so many rounds, or for so long where SECONDS is not 0
//   differ text SEED LINES       writes a random call file, for the stepping program and the model's
#include <chrono>
#include <cstdio>
#include <cstdlib>
#include <cstring>
#include <string>

#include "mv.h"
#include "random_calls.hpp"
#include "words.hpp"

namespace {

using model::Answer;
using model::Call;
using model::Caller;
using model::Dice;
using model::Tables;
using model::Words;

struct Counts {
    std::uint64_t calls = 0, lines = 0, texts = 0, tables = 0, sound_tables = 0, faults = 0;
    std::uint64_t answers[0x13] = {};
};

Counts counts;

void fault(const char* what, std::uint64_t seed) {
    if (++counts.faults <= 20) std::printf("DIFFERS: %s, in the round of seed %llu\n", what, static_cast<unsigned long long>(seed));
}

Answer plain(mv_answer a) { return {static_cast<std::uint8_t>(a.number), a.value}; }

Answer core_call(Words& words, const Call& c) {
    std::uint64_t* const w = words.data();
    const std::size_t n = words.size();
    switch (c.kind) {
        case 1: return plain(mv_start(w, n));
        case 2: return plain(mv_read(w, n, c.txn, c.object));
        case 3: return plain(mv_write(w, n, c.txn, c.object, c.value));
        case 4: return plain(mv_prepare(w, n, c.txn, c.object));
        case 5: return plain(mv_save(w, n, c.object));
        case 6: return plain(mv_commit(w, n, c.txn));
        case 7: return plain(mv_abort(w, n, c.txn));
        case 8: return plain(mv_settle(w, n, c.object));
        case 9: return plain(mv_crash(w, n, c.value));
        case 10: return plain(mv_restart(w, n));
        case 11: return plain(mv_status(w, n, c.txn));
        default: return plain(mv_look(w, n, c.object));
    }
}

Answer core_line(Words& words, const std::string& line) {
    return plain(mv_line(words.data(), words.size(), reinterpret_cast<const std::uint8_t*>(line.data()), line.size()));
}

void count(const Answer& a) {
    if (a.number < 0x13) ++counts.answers[a.number];
}

// Fresh tables, one time in twelve with all but a few numbers spent.
void begin(Dice& dice, Tables& tables, Words& words) {
    tables = Tables{};
    words.assign(model::kWords, dice.any());
    if (mv_fresh(words.data(), words.size()).number != MV_DONE) fault("mv_fresh", 0);
    if (dice.one_in(12)) {
        tables.next = static_cast<std::uint32_t>(1000000 - dice.below(40));
        words[0] = tables.next;
    }
}

// One history: each call, or its line, through the core and through the model.
void history(std::uint64_t seed, bool by_lines, std::size_t length, Tables& tables, Words& words) {
    Dice dice(seed);
    begin(dice, tables, words);
    Caller caller(dice, model::any_manner(dice));
    Words expected;
    for (std::size_t i = 0; i < length; ++i) {
        const Call call = caller.next(tables);
        Answer core, own;
        if (by_lines) {
            const std::string line = model::random_line(dice, call);
            core = core_line(words, line);
            own = model::line(tables, line);
            ++counts.lines;
        } else {
            core = core_call(words, call);
            own = tables.call(call);
            ++counts.calls;
        }
        count(core);
        model::pack(tables, expected);
        if (!(core == own)) fault("an answer", seed);
        if (words != expected) fault("the words", seed);
        if (counts.faults) return;
    }
}

// A chain with no room left, some of it saved: eight writers of one object, each building on the one before.
void full_chain(std::uint64_t seed, Tables& tables, Words& words) {
    Dice dice(seed);
    tables = Tables{};
    words.assign(model::kWords, 0);
    mv_fresh(words.data(), words.size());
    const auto object = static_cast<std::uint8_t>(dice.below(32));
    for (std::uint32_t txn = 1; txn <= model::kChain; ++txn)
        for (const Call& call : {Call{1, 0, 0, 0}, Call{3, txn, object, dice.any()}, Call{4, txn, object, 0}, Call{5, 0, object, 0}}) {
            if (call.kind == 5 && !dice.one_in(3)) continue;
            if (!(core_call(words, call) == tables.call(call))) fault("an answer on the way to a full chain", seed);
            ++counts.calls;
        }
}

// A text of lines through mv_run, with a room that may be short, and the last line feed that may be missing.
void text(std::uint64_t seed) {
    Dice dice(seed);
    Tables tables;
    Words words;
    begin(dice, tables, words);
    Tables ahead = tables;
    Caller caller(dice, model::any_manner(dice));
    std::string calls;
    const std::size_t lines = dice.below(400);
    for (std::size_t i = 0; i < lines; ++i) {
        const std::string line = model::random_line(dice, caller.next(ahead));
        model::line(ahead, line);
        calls += line;
    }
    if (dice.one_in(3) && !calls.empty()) calls.pop_back();
    const std::size_t size = dice.one_in(2) ? 19 * (lines * 3 + 40) : dice.below(19 * (lines + 2) + 1);
    const char before = static_cast<char>(dice.any());
    std::string room(size + 1, before), expected = room;
    std::uint64_t answered = 0;
    std::size_t at = 0;
    while (at < calls.size() && 19 * (answered + 1) <= size) {
        const std::size_t feed = calls.find('\n', at);
        const std::size_t end = feed == std::string::npos ? calls.size() : feed + 1;
        expected.replace(19 * answered, 19, model::write_answer(model::line(tables, calls.substr(at, end - at))));
        ++answered;
        at = end;
    }
    const mv_answer ran = mv_run(words.data(), words.size(), reinterpret_cast<const std::uint8_t*>(calls.data()), calls.size(),
                                 reinterpret_cast<std::uint8_t*>(room.data()), size);
    Words left;
    model::pack(tables, left);
    if (ran.number != MV_DONE || ran.value != answered) fault("how many lines mv_run answered", seed);
    if (room != expected) fault("the answer lines of mv_run", seed);
    if (words != left) fault("the words after mv_run", seed);
    ++counts.texts;
}

// Spoiled words: the core's test against the model's. Unsound ones are refused by any call and stay; sound ones go on as the
// model does from there.
void spoiled(Dice& dice, Words& words, std::uint64_t seed) {
    ++counts.tables;
    const Words before = words;
    const bool sound = model::sound(words);
    Tables tables;
    if (sound) tables = model::unpack(words), ++counts.sound_tables;
    Caller caller(dice, model::any_manner(dice));
    const Call call = sound ? caller.next(tables) : caller.senseless(Tables{});
    const Answer core = core_call(words, call);
    count(core);
    if (!sound) {
        if (!(core == Answer{0x01, 0})) fault("unsound words were taken", seed);
        if (words != before) fault("unsound words were changed", seed);
        return;
    }
    const Answer own = tables.call(call);
    Words expected;
    model::pack(tables, expected);
    if (!(core == own)) fault(core.number == 0x01 ? "sound words were refused" : "an answer on spoiled words", seed);
    if (words != expected) fault("words after a call on spoiled words", seed);
}

std::uint64_t near_or_far(Dice& dice, const Words& words, std::uint64_t old) {
    switch (dice.below(7)) {
        case 0: return 0;
        case 1: return old + 1;
        case 2: return old - 1;
        case 3: return old ^ (std::uint64_t{1} << dice.below(64));
        case 4: return words[dice.below(words.size())];
        case 5: return words[0] - dice.below(3);
        default: return dice.any();
    }
}

// A change such as a fault in a core would make: most rules still hold, one may not.
void change_sensibly(Dice& dice, Words& w) {
    // half the time the object whose chain is longest, where there is most to go wrong
    std::size_t o = dice.below(32);
    const auto length = [&](std::size_t object) { return w[834 + object] + w[866 + object]; };
    for (std::size_t other = 0, half = dice.below(2); half && other < 32; ++other)
        if (length(other) > length(o)) o = other;
    const std::size_t room = length(o) > 0 && length(o) < 8 ? length(o) : 8;
    const std::size_t p = dice.below(32), q = dice.below(32), i = dice.below(room), j = dice.below(room);
    const std::size_t record = 2 + dice.below(w[1] < 512 ? w[1] + 1 : 512), other = 2 + dice.below(512);
    const auto flip = [&](std::size_t column) {
        const std::uint64_t set = w[column + p];
        w[column + p] ^= dice.one_in(2) ? set & (~set + 1) : std::uint64_t{1} << dice.below(32);
    };
    const auto numbers_of = [&](std::uint64_t pick) { return pick == 0 ? w[514 + q] : pick == 1 ? w[record] : dice.below(w[0] + 1); };
    const auto place_of = [&](std::uint64_t txn) {
        return static_cast<std::size_t>(std::find(&w[514], &w[546], txn) - &w[514]);
    };
    switch (dice.below(14)) {
        case 0: std::swap(w[898 + 8 * o + i], w[898 + 8 * o + j]), std::swap(w[1154 + 8 * o + i], w[1154 + 8 * o + j]); break;
        case 1: std::swap(w[record], w[other]); break;
        case 2: w[1154 + 8 * o + i] = numbers_of(dice.below(3)); break;
        case 3: ++w[834 + o], --w[866 + o]; break;
        case 4: --w[834 + o], ++w[866 + o]; break;
        case 5: flip(546); break;
        case 6: flip(578); break;
        case 7: flip(610); break;
        case 8: flip(642); break;
        case 9: w[770 + o] = numbers_of(dice.below(3)); break;
        case 10: w[770 + o] = 0, w[802 + o] = 0; break;
        case 11: w[738 + o] = dice.below(w[1] + 2), w[706 + o] = w[738 + o] ? w[1 + w[738 + o]] : 0; break;
        case 12: w[514 + p] = numbers_of(dice.below(3)); break;
        default:  // an entry twice in its chain, with the dependency that an entry must have on the one before
            if (j == 0) return;
            w[1154 + 8 * o + j] = w[1154 + 8 * o + i];
            const std::size_t writer = place_of(w[1154 + 8 * o + i]), before = place_of(w[1154 + 8 * o + j - 1]);
            if (writer < 32 && before < 32) w[642 + writer] |= std::uint64_t{1} << before;
    }
}

void spoil(std::uint64_t seed, const Words& words) {
    Dice dice(seed ^ 0x5eed);
    Words same = words;
    spoiled(dice, same, seed);
    // every single word, three ways
    for (std::size_t k = 0; k < words.size(); ++k)
        for (int way = 0; way < 3; ++way) {
            Words changed = words;
            if (way == 0) ++changed[k];
            else if (way == 1) changed[k] ^= std::uint64_t{1} << dice.below(33);
            else changed[k] = near_or_far(dice, words, words[k]);
            spoiled(dice, changed, seed);
        }
    // several at once: a few words of one column or of any, or a few changes that keep most rules
    for (int i = 0; i < 4000; ++i) {
        Words changed = words;
        const std::size_t column = 514 + 32 * dice.below(28);
        const bool sensibly = i % 4 != 0;
        for (std::uint64_t n = sensibly ? 1 + dice.below(3) : 2 + dice.below(4); n > 0; --n) {
            const std::size_t k = dice.one_in(2) ? column + dice.below(32) : dice.below(words.size());
            if (!sensibly) changed[k] = near_or_far(dice, words, changed[k]);
            else if (changed[0] < 1000001 && changed[1] < 512) change_sensibly(dice, changed);
        }
        spoiled(dice, changed, seed);
    }
    // another count of words
    for (std::size_t size : {std::size_t{0}, std::size_t{1}, model::kWords - 1, model::kWords + 1, dice.below(3000)}) {
        if (size == model::kWords) continue;
        Words changed = words;
        changed.reserve(1);
        changed.resize(size);
        spoiled(dice, changed, seed);
    }
}

void round_of(std::uint64_t seed) {
    Tables tables;
    Words words;
    Dice dice(seed);
    // tables are spoiled as real histories leave them: after a few calls, after many, with the log full, with a chain full
    std::uint64_t number = 100 * seed;
    for (std::uint64_t length : {dice.below(40), dice.below(400), std::uint64_t{1400}, std::uint64_t{3000}, std::uint64_t{8000}}) {
        history(++number, false, length, tables, words);
        if (length != 1400 && length != 3000) spoil(number, words);
    }
    full_chain(++number, tables, words);
    spoil(number, words);
    for (int i = 0; i < 3; ++i) history(++number, true, 3000, tables, words);
    for (int i = 0; i < 20; ++i) text(++number);
}

int report(std::uint64_t seed, std::uint64_t rounds) {
    const auto number = [](std::uint64_t n) { return static_cast<unsigned long long>(n); };
    std::printf("seed %llu, %llu rounds: %llu calls, %llu lines, %llu texts, %llu spoiled tables (%llu of them sound)\n",
                number(seed), number(rounds), number(counts.calls), number(counts.lines), number(counts.texts),
                number(counts.tables), number(counts.sound_tables));
    std::printf("answers:");
    bool all = true;
    for (int a = 0; a < 0x13; ++a) {
        std::printf(" %02x %llu", static_cast<unsigned>(a), number(counts.answers[a]));
        all = all && counts.answers[a] > 0;
    }
    std::printf("\n%s: the core answers and leaves what the model does (%llu differ)\n", counts.faults ? "FAILED" : "ok",
                number(counts.faults));
    std::printf("%s: every answer number was given\n", all ? "ok" : "FAILED");
    const int passed = (counts.faults == 0) + all;
    std::printf("%d passed, %d failed\n", passed, 2 - passed);
    return passed == 2 ? 0 : 1;
}

int write_text(std::uint64_t seed, std::uint64_t lines) {
    Dice dice(seed);
    Tables tables;
    Caller caller(dice, model::Manner{6, 20, 2000, false, true});
    for (std::uint64_t i = 0; i < lines; ++i) {
        const std::string line = model::random_line(dice, caller.next(tables));
        model::line(tables, line);
        std::fwrite(line.data(), 1, line.size(), stdout);
    }
    std::fputs("01000000", stdout);
    return 0;
}

}  // namespace

int main(int argc, char** argv) {
    if (argc == 4 && std::strcmp(argv[1], "text") == 0) return write_text(std::strtoull(argv[2], nullptr, 10), std::strtoull(argv[3], nullptr, 10));
    if (argc != 4) {
        std::fprintf(stderr, "usage: differ SEED ROUNDS SECONDS, or differ text SEED LINES\n");
        return 2;
    }
    const std::uint64_t seed = std::strtoull(argv[1], nullptr, 10);
    const std::uint64_t rounds = std::strtoull(argv[2], nullptr, 10);
    const double seconds = std::strtod(argv[3], nullptr);
    const auto began = std::chrono::steady_clock::now();
    const auto time_left = [&] { return std::chrono::duration<double>(std::chrono::steady_clock::now() - began).count() < seconds; };
    std::uint64_t done = 0;
    while ((seconds > 0 ? time_left() : done < rounds) && counts.faults == 0) round_of(seed + done++);
    return report(seed, done);
}
