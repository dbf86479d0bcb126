// The report's point in figures: many bookings of one hot tube, where a write to storage takes 20 ms. The time is simulated,
// the calls are the core's. Held: a booking keeps the tube's lock until its version and then its commit record are
// written, two writes one after the other. Released early: bookings prepare one after the other, as many as the tube's chain
// has room for; one write saves all that is queued, and one write takes all their commit records.
// Prints a `bench` line, in bookings a second of simulated time, and how it goes with shorter queues.
#include <cstdio>
#include <cstdlib>
#include <initializer_list>

#include "mv.hpp"
#include "timing.hpp"

namespace {

constexpr double kWrite = 0.020;
constexpr int kBookings = 480;
constexpr mv::Obj kTube{5};

mv::Answer must(mv::Answer answer) {
    if (answer.done()) return answer;
    std::fprintf(stderr, "hot tube: %s\n", answer.name().data());
    std::exit(1);
}

// Starts a booking and prepares it, one load of 1 from the tube.
mv::Txn prepare_one(mv::Tables& tables) {
    const mv::Txn txn = must(tables.start()).txn();
    const std::uint64_t volume = must(tables.read(txn, kTube)).value();
    must(tables.write(txn, kTube, volume + 1));
    must(tables.prepare(txn, kTube));
    return txn;
}

// Bookings a second where so many wait at a time and share their writes. One at a time is the lock held through both
// phases: nobody else can begin before both writes are done.
double rate(int together) {
    mv::Tables tables;
    double time = 0;
    for (int booked = 0; booked < kBookings; booked += together) {
        mv::Txn txns[MV_CHAIN];
        for (int i = 0; i < together; ++i) txns[i] = prepare_one(tables);
        time += kWrite;
        must(tables.save(kTube));
        time += kWrite;
        for (int i = 0; i < together; ++i) must(tables.commit(txns[i]));
        must(tables.settle(kTube));
    }
    if (must(tables.look(kTube)).value() != kBookings) std::exit(1);
    return kBookings / time;
}

}  // namespace

int main() {
    const double held = rate(1);
    for (int together : {1, 2, 4, 8}) std::printf("hot %d %.1f %.1f\n", together, rate(together), rate(together) / held);
    timing::report("hot_tube_bookings_a_second", rate(MV_CHAIN), held);
}
