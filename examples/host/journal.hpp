// The host's own log, FOLDER/journal: lines of text, only ever added, for whoever must find out later what was
// booked. The core does not need it; the kill test holds the core's log against it.
//
//     restart FIRST           the host has started again: numbers from FIRST on are given out from here on
//     wrote TXN TUBE VALUE    a write that the core accepted; there before the version can be in FOLDER/tables
//     told TXN LSN            there once the record is durable, just before the user is told
//
// A number can come twice. The next number is one of the words, so a transaction that began after the last durable
// write is forgotten by a kill together with its number, and the next host gives that number to another. What the
// first one wrote is in the journal, though it was never in a file. So: a restart line makes every wrote line above
// it void whose number is FIRST or higher. It voids nothing that was durable: FIRST is the next number of the file
// that the host found, so all transactions that the file knows have lower ones. For the same reason it never voids a
// told line.
//
// A kill can cut the last line short. The next host ends it with " torn", and a reader passes over a line that ends
// so, and over a last line that has no line feed.
#pragma once

#include <cstdint>
#include <initializer_list>
#include <string>

#include <mv.hpp>

#include "system.hpp"

namespace host {

class Journal {
public:
    // Opens the journal in a folder, or begins one, and marks a torn last line.
    explicit Journal(int folder);

    // A transaction has its number. The first that this host begins is the one that the restart line names.
    void began(mv::Txn txn);
    void wrote(mv::Txn txn, mv::Obj tube, std::uint64_t value);
    void told(mv::Txn txn, mv::Lsn record);

    // Returns once all lines are durable.
    void sync();

private:
    void add(const std::string& event, std::initializer_list<std::uint64_t> numbers);

    File file_;
    bool restarted_ = false;
};

}  // namespace host
