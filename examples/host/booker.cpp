#include "booker.hpp"

#include <algorithm>
#include <limits>

#include <unistd.h>

namespace host {

// At most half of the places for live transactions, so that a booking which waits for room in a chain has one too.
static constexpr std::size_t kBatch = 16;

// One booking is prepared before the next is started, and dependencies are committed first: no other answer can come.
static mv::Answer done(const char* call, mv::Answer answer) {
    if (!answer.done()) throw Failure{kFailed, std::string{call} + ": the core answers " + std::string{answer.name()}};
    return answer;
}

void Booker::book(const Booking& booking) {
    if (batch_.size() == kBatch) finish();
    if (closed()) return answer(closed_);
    const mv::Answer started = tables_.start();
    if (started.number() == mv::Number::numbers_spent) {
        finish();
        if (!closed()) closed_ = "numbers spent";
        return answer(closed_);
    }
    const mv::Txn txn = done("start", started).txn();
    journal_.began(txn);
    const std::string refusal = change_tubes(txn, booking);
    if (!refusal.empty()) {
        done("abort", tables_.abort(txn));
    } else if (!prepare(txn, booking)) {
        return answer(closed_);
    }
    batch_.push_back({txn, refusal, {}});
}

// Reads and writes the booking's tubes. Gives why the host refuses it; nothing where it does not.
std::string Booker::change_tubes(mv::Txn txn, const Booking& booking) {
    for (const Change& change : booking.changes) {
        std::uint64_t value = change.volume;
        if (change.kind != Change::Kind::set) {
            const std::uint64_t held = done("read", tables_.read(txn, change.tube)).value();
            const bool takes = change.kind == Change::Kind::take;
            const std::uint64_t most = takes ? held : std::numeric_limits<std::uint64_t>::max() - held;
            if (change.volume > most)
                return "refused: tube " + std::to_string(change.tube.num) + " holds " + std::to_string(held);
            value = takes ? held - change.volume : held + change.volume;
        }
        done("write", tables_.write(txn, change.tube, value));
        journal_.wrote(txn, change.tube, value);
    }
    return {};
}

// Queues the booking's versions and frees its tubes. Gives whether it could: not once the log is full.
bool Booker::prepare(mv::Txn txn, const Booking& booking) {
    for (const Change& change : booking.changes) {
        mv::Answer prepared = tables_.prepare(txn, change.tube);
        if (prepared.number() == mv::Number::chain_full) {
            // The versions in the chain are the batch's: once it is committed and settled, the chain has room.
            finish();
            if (closed()) return false;
            prepared = tables_.prepare(txn, change.tube);
        }
        done("prepare", prepared);
    }
    for (const Change& change : booking.changes) touched_ = touched_.with(change.tube);
    return true;
}

void Booker::finish() {
    const auto accepted = [](const Taken& taken) { return taken.refusal.empty(); };
    if (std::any_of(batch_.begin(), batch_.end(), accepted)) save_and_commit();
    for (const Taken& taken : batch_) {
        if (accepted(taken)) journal_.told(taken.txn, taken.record);
        answer(accepted(taken) ? "committed " + std::to_string(taken.record.num) : taken.refusal);
    }
    // In memory alone: a restart settles what the file has logged, and the next batch's write has it settled.
    for (const mv::Obj tube : touched()) done("settle", tables_.settle(tube));
    batch_.clear();
    touched_ = {};
}

void Booker::save_and_commit() {
    journal_.sync();
    storage_.store(tables_, "queued versions");
    for (const mv::Obj tube : touched()) done("save", tables_.save(tube));

    std::size_t committed = 0;
    for (Taken& taken : batch_) {
        if (taken.refusal.empty() && !closed()) {
            const mv::Answer answered = tables_.commit(taken.txn);
            if (answered.number() == mv::Number::log_full) {
                closed_ = "log full";
            } else {
                taken.record = done("commit", answered).lsn();
                ++committed;
            }
        }
        // Also a booking that was refused: it may have been for a volume that a booking without a record left.
        if (closed()) taken.refusal = closed_;
    }
    // What is live now was not told anything; it is left to the next restart, which drops it.
    if (committed > 0) storage_.store(tables_, "log records");
}

void Booker::answer(const std::string& line) {
    write_whole(STDOUT_FILENO, line + "\n", "an answer");
}

std::vector<mv::Obj> Booker::touched() const {
    std::vector<mv::Obj> tubes;
    for (std::uint8_t number = 0; number < MV_OBJECTS; ++number)
        if (touched_.has(mv::Obj{number})) tubes.push_back(mv::Obj{number});
    return tubes;
}

}  // namespace host
