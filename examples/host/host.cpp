// A small host: keeps the core's words in a file, books from a text of bookings, and may be killed at any moment.
//
// A booking is one transaction: start; read, write and prepare for each tube; save, commit, settle. Prepare frees the
// tube before anything is on storage, and that is what batches are for: up to 16 bookings start, read, write and
// prepare one after the other, and one that finds a tube written by an earlier one builds on the queued version and
// depends on it. Storage is then asked twice for the whole batch:
//
//     1. The words, with all queued versions, are written durably. Only then does save say that these are on storage,
//        and commit adds the log records, in the order of the bookings, so that each comes after what it depends on.
//     2. The words, with the log records, are written durably. Only then are the bookings answered: `committed` with
//        the record's number, and the refusals as well, for these may rest on a volume that an earlier booking of the
//        batch left.
//
// Each write replaces the file as a whole (storage.hpp), so a kill leaves one of three files:
//
//     before 1     the words as the last batch left them. Nothing of this batch is there, and nobody was told of it.
//     1 to 2       the versions are there, queued or saved, and not one record of the batch. The restart drops versions
//                  without a record, and nobody was told.
//     after 2      the versions and the records are there. The restart keeps all of them, those told and those for
//                  which the kill came before the answer: who got no answer may be booked, and `show` tells.
//
// So whoever was told `committed` has a record on storage, and whoever built on another's version comes after it in the
// log. With everything in one file the second write alone would keep these promises; the first one keeps save's word,
// on which a host rests whose versions and log lie in different places.
//
// A tube's chain holds 8 versions. A booking that finds it full stays as it is, live, until the batch before it is
// finished; then it is prepared again. What of it is in a file by then has no record, so a restart drops it, too.
#include <csignal>
#include <cstdio>
#include <string>
#include <string_view>

#include <unistd.h>

#include "booker.hpp"
#include "bookings.hpp"
#include "journal.hpp"
#include "storage.hpp"
#include "system.hpp"

namespace host {

static Exit book(const std::string& folder) {
    Storage storage{folder};
    storage.be_the_only_booker();
    mv::Tables tables = storage.load();
    Journal journal{storage.folder()};
    Booker booker{tables, storage, journal};
    Lines lines{STDIN_FILENO};
    bool bad_line = false;
    for (;;) {
        // Whoever booked has an answer before the host waits for more.
        if (!lines.at_hand()) booker.finish();
        const auto line = lines.next();
        if (!line) break;
        try {
            if (!line->ended) throw BadLine{"cut off: it has no line feed"};
            const Booking booking = parse(line->text);
            if (!booking.changes.empty()) booker.book(booking);
        } catch (const BadLine& bad) {
            bad_line = true;
            std::fprintf(stderr, "line %zu: %s\n", line->number, bad.why.c_str());
        }
    }
    return booker.closed() ? kFull : bad_line ? kBadInput : kDone;
}

static Exit show(const std::string& folder) {
    mv::Tables tables = Storage{folder}.load();
    for (std::uint8_t number = 0; number < MV_OBJECTS; ++number) {
        const std::uint64_t volume = tables.look(mv::Obj{number}).value();
        if (volume == 0) continue;
        const std::string line = "tube " + std::to_string(number) + " holds " + std::to_string(volume) + "\n";
        write_whole(STDOUT_FILENO, line, "what a tube holds");
    }
    return kDone;
}

static Exit run(int count, char** words) {
    const std::string_view asked = count == 3 ? words[2] : "";
    if (asked == "book") return book(words[1]);
    if (asked == "show") return show(words[1]);
    std::fputs("usage: host FOLDER book < BOOKINGS   books, and answers each booking\n"
               "       host FOLDER show              shows each tube that is not empty\n",
               stderr);
    return kBadInput;
}

}  // namespace host

int main(int count, char** words) {
    // A reader that has gone is a write that fails, with a line of its own, and not the end without one.
    std::signal(SIGPIPE, SIG_IGN);
    try {
        return host::run(count, words);
    } catch (const host::Failure& failure) {
        std::fprintf(stderr, "host: %s\n", failure.line.c_str());
        return failure.status;
    }
}
