// Takes bookings in batches: host.cpp says in which order things are done, and why.
#pragma once

#include <string>
#include <vector>

#include <mv.hpp>

#include "bookings.hpp"
#include "journal.hpp"
#include "storage.hpp"

namespace host {

class Booker {
public:
    Booker(mv::Tables& tables, Storage& storage, Journal& journal)
        : tables_(tables), storage_(storage), journal_(journal) {}

    // Takes a booking into the batch. It is answered once the batch is finished.
    void book(const Booking& booking);

    // Makes the batch durable, commits it, and answers each of its bookings on standard output.
    void finish();

    // Whether the tables have no room for another booking.
    bool closed() const { return !closed_.empty(); }

private:
    struct Taken {
        mv::Txn txn;
        std::string refusal;  // empty: to be committed, or committed
        mv::Lsn record;
    };

    std::string change_tubes(mv::Txn txn, const Booking& booking);
    bool prepare(mv::Txn txn, const Booking& booking);
    void save_and_commit();
    void answer(const std::string& line);
    std::vector<mv::Obj> touched() const;

    mv::Tables& tables_;
    Storage& storage_;
    Journal& journal_;
    std::vector<Taken> batch_;
    mv::ObjSet touched_;  // by the batch
    std::string closed_;  // why there is no room left
};

}  // namespace host
