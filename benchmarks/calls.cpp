// Single calls and runs of lines: the proved core beside the C++ core with the same test, by how long the log is.
// Prints a `bench` line for each measurement, and for the picture a `length RECORDS OURS PEER` line.
#include <cstdint>
#include <cstdio>
#include <cstdlib>
#include <string>
#include <vector>

#include "fast_core.hpp"
#include "mv.h"
#include "timing.hpp"

namespace {

using fast::Call;

// Both cores on words of their own, which stay equal.
struct Pair {
    std::vector<std::uint64_t> ours = std::vector<std::uint64_t>(fast::kWords);
    std::vector<std::uint64_t> peers = std::vector<std::uint64_t>(fast::kWords);
    fast::Core<true> peer{peers.data()};

    void fresh() {
        mv_fresh(ours.data(), ours.size());
        peer.fresh();
    }

    mv_answer our_call(const Call& c) {
        std::uint64_t* const w = ours.data();
        const std::size_t n = ours.size();
        switch (c.kind) {
            case 1: return mv_start(w, n);
            case 2: return mv_read(w, n, c.txn, c.object);
            case 3: return mv_write(w, n, c.txn, c.object, c.value);
            case 4: return mv_prepare(w, n, c.txn, c.object);
            case 5: return mv_save(w, n, c.object);
            case 6: return mv_commit(w, n, c.txn);
            case 7: return mv_abort(w, n, c.txn);
            case 8: return mv_settle(w, n, c.object);
            case 11: return mv_status(w, n, c.txn);
            default: return mv_look(w, n, c.object);
        }
    }

    // Makes the call on both, and stops the benchmark where they differ.
    void both(const Call& c) {
        const mv_answer a = our_call(c);
        const fast::Answer b = peer.call(c);
        if (a.number == b.number && a.value == b.value && ours == peers) return;
        std::fprintf(stderr, "bench: the two cores differ at a call of kind %d\n", c.kind);
        std::exit(1);
    }
};

Call call(int kind, std::uint32_t txn, int object, std::uint64_t value) {
    return {static_cast<std::uint8_t>(kind), static_cast<std::uint8_t>(object), txn, value};
}

// The calls of a booking of one tube.
std::vector<Call> booking(std::uint32_t txn, int object) {
    return {call(1, 0, 0, 0),        call(2, txn, object, 0), call(3, txn, object, 100 + txn),
            call(4, txn, object, 0), call(5, 0, object, 0),   call(6, txn, 0, 0)};
}

std::string line_of(const Call& c) {
    char text[40];
    std::snprintf(text, sizeof text, "%02x%08x%02x%016llx\n", c.kind, c.txn, c.object, static_cast<unsigned long long>(c.value));
    return text;
}

// So many records in the log, and three transactions under way: one with a lock, one with a queued version, one that
// depends on it.
void with_records(Pair& pair, std::uint32_t records) {
    pair.fresh();
    for (std::uint32_t txn = 1; txn <= records; ++txn) {
        const int object = static_cast<int>(txn % 32);
        for (const Call& c : booking(txn, object)) pair.both(c);
        pair.both(call(8, 0, object, 0));
    }
    for (int i = 0; i < 3; ++i) pair.both(call(1, 0, 0, 0));
    pair.both(call(3, records + 1, 3, 7));
    pair.both(call(3, records + 2, 4, 8));
    pair.both(call(4, records + 2, 4, 0));
    pair.both(call(2, records + 3, 4, 0));
}

struct Cost {
    double ours, peer;
};

Cost cost(Pair& pair, const Call& c) {
    pair.both(c);
    return {timing::best(600, [&] { timing::keep(pair.our_call(c)); }),
            timing::best(600, [&] { timing::keep(pair.peer.call(c)); })};
}

// Calls that leave the tables as they find them, so that each can be made over and over.
void single_calls(Pair& pair) {
    struct Named {
        const char* name;
        int kind;
        std::uint32_t txn;  // counted from the first that is under way
        int object;
        std::uint64_t value;
    };
    static constexpr Named calls[] = {{"look", 12, 0, 4, 0}, {"read", 2, 1, 3, 0}, {"write", 3, 1, 3, 7}, {"status", 11, 2, 0, 0}};
    for (const Named& named : calls) {
        double empty = 0;
        for (std::uint32_t records : {0u, 512u}) {
            with_records(pair, records);
            const Cost c = cost(pair, call(named.kind, named.txn ? named.txn + records : 0, named.object, named.value));
            const std::string name = std::string(named.name) + (records ? "_full_log" : "_empty_log");
            timing::report(name.c_str(), c.ours, c.peer);
            if (records == 0) empty = c.ours;
            else timing::report((std::string(named.name) + "_full_over_empty").c_str(), c.ours, empty);
        }
    }
}

void by_length(Pair& pair) {
    for (std::uint32_t records = 0; records <= 512; records += 32) {
        with_records(pair, records);
        const Cost c = cost(pair, call(2, records + 1, 3, 0));
        std::printf("length %u %.1f %.1f\n", records, c.ours, c.peer);
    }
}

// 256 bookings from fresh tables, of one tube after the other. When all 32 tubes have had one, they are settled, outside the
// time: a host does that when it has nothing better to do, and chains stay short.
class Bookings {
public:
    static constexpr std::size_t kRounds = 8;
    static constexpr std::size_t kCount = 32 * kRounds;

    Bookings() {
        for (std::uint32_t txn = 1; txn <= kCount; ++txn)
            for (const Call& c : booking(txn, static_cast<int>(txn % 32))) {
                calls[(txn - 1) / 32].push_back(c);
                lines[(txn - 1) / 32] += line_of(c);
            }
        for (int object = 0; object < 32; ++object) {
            settles.push_back(call(8, 0, object, 0));
            settle_lines += line_of(settles.back());
        }
    }

    // The time of one booking, the best of many repeats of all rounds: `round(i)` is timed, `settle` is not.
    template <class Fresh, class Round, class Settle>
    static double best(Fresh fresh, Round round, Settle settle) {
        double least = 1e300;
        for (int repeat = 0; repeat < 200; ++repeat) {
            double took = 0;
            fresh();
            for (std::size_t i = 0; i < kRounds; ++i) {
                const double began = timing::now();
                round(i);
                took += timing::now() - began;
                settle();
            }
            if (took < least) least = took;
        }
        return least / kCount;
    }

    std::vector<Call> calls[kRounds], settles;
    std::string lines[kRounds], settle_lines;
};

void run_lines(Pair& pair, const std::string& text, std::vector<std::uint8_t>& room) {
    const mv_answer a = mv_run(pair.ours.data(), pair.ours.size(), reinterpret_cast<const std::uint8_t*>(text.data()), text.size(),
                               room.data(), room.size());
    if (a.number != MV_DONE || a.value != text.size() / 29) std::exit(1);
}

void bookings(Pair& pair) {
    const Bookings b;
    std::vector<std::uint8_t> room(b.lines[0].size());
    const auto fresh = [&] { pair.fresh(); };
    const auto settle_ours = [&] { run_lines(pair, b.settle_lines, room); };
    const auto settle_peers = [&] {
        for (const Call& c : b.settles) pair.peer.call(c);
    };
    fresh();
    for (const auto& round : b.calls) {
        for (const Call& c : round) pair.both(c);
        settle_ours();
        settle_peers();
    }
    const double run = Bookings::best(fresh, [&](std::size_t i) { run_lines(pair, b.lines[i], room); }, settle_ours);
    const double single = Bookings::best(
        fresh, [&](std::size_t i) { for (const Call& c : b.calls[i]) timing::keep(pair.our_call(c)); }, settle_ours);
    const double peer = Bookings::best(
        fresh, [&](std::size_t i) { for (const Call& c : b.calls[i]) timing::keep(pair.peer.call(c)); }, settle_peers);
    timing::report("booking_call_by_call", single, peer);
    timing::report("line_of_run_over_single_call", run / 6, single / 6);
    std::printf("booking %.1f %.1f\n", run, single);
}

}  // namespace

int main() {
    Pair pair;
    single_calls(pair);
    by_length(pair);
    bookings(pair);
}
