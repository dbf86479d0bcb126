// The words in a file, FOLDER/tables, replaced as a whole.
//
// A durable write puts the words into FOLDER/tables.new, syncs it, renames it over FOLDER/tables and syncs the
// folder. Until the rename the old file is untouched, and at the rename the name goes from one whole file to another:
// there is no moment at which FOLDER/tables is a part of a file. The first sync comes before the rename, so that also
// after a power cut the name never stands for bytes that are not on storage; after the second sync the new file is
// the one that a restart finds. A tables.new that a kill left behind is never read, and the next write starts it
// anew.
//
// The file is a run of 64-bit words, low byte first: a magic word, the format's version, how many words follow, the
// words, and a checksum over all before it (FNV-1a, which sees every change of a single byte, and others but for one
// in 2^64).
#pragma once

#include <string>

#include <mv.hpp>

#include "system.hpp"

namespace host {

class Storage {
public:
    explicit Storage(const std::string& folder);

    int folder() const noexcept { return folder_.fd(); }

    // Two hosts that book would each overwrite what the other stored: the second is refused. A kill frees the place.
    void be_the_only_booker();

    // What a restart makes of the file; fresh tables where there is none. Writes nothing. A file that is not whole,
    // or whose words are not sound, is a Failure.
    mv::Tables load() const;

    // Returns once the words are durable. `what` names this write for a message and for the kill test.
    void store(const mv::Tables& tables, const std::string& what);

private:
    std::string name_;
    File folder_;
};

}  // namespace host
