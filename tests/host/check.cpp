// Holds what a killed host left in its folder against demand 3 and against the host's own journal.
//   check FOLDER BEFORE     BEFORE is FOLDER/tables as it was before the run that was killed; it need not be there
// Prints `records N` and nothing else if all is right, else one line for each thing that is not; the exit status tells
// too. It reads the file and the journal by their descriptions (storage.hpp, journal.hpp, docs/LAYOUT.md), with code of
// its own.
#include <algorithm>
#include <array>
#include <cstdint>
#include <cstdio>
#include <fstream>
#include <iterator>
#include <map>
#include <optional>
#include <set>
#include <sstream>
#include <string>
#include <vector>

#include <mv.hpp>

namespace {

using Words = std::array<std::uint64_t, mv::kWords>;
constexpr std::size_t kBatch = 16;

int complaints = 0;

void complain(const std::string& what) {
    std::printf("%s\n", what.c_str());
    ++complaints;
}

std::optional<std::string> contents(const std::string& path) {
    std::ifstream file{path, std::ios::binary};
    if (!file) return std::nullopt;
    return std::string{std::istreambuf_iterator<char>{file}, {}};
}

// The words of a whole file; fresh ones where there is no file; none where it is not whole.
std::optional<Words> words_of(const std::string& path) {
    Words words{};
    mv_fresh(words.data(), words.size());
    const auto bytes = contents(path);
    if (!bytes) return words;
    std::vector<std::uint64_t> all(bytes->size() / 8);
    for (std::size_t i = 0; i < 8 * all.size(); ++i)
        all[i / 8] |= std::uint64_t{static_cast<unsigned char>((*bytes)[i])} << 8 * (i % 8);
    std::uint64_t sum = 0xcbf29ce484222325;
    for (std::size_t i = 0; i + 8 < bytes->size(); ++i)
        sum = (sum ^ static_cast<unsigned char>((*bytes)[i])) * 0x100000001b3;
    const bool whole = bytes->size() == 8 * (mv::kWords + 4) && bytes->substr(0, 8) == "Mvtables" && all[1] == 1 &&
                       all[2] == mv::kWords && all.back() == sum;
    if (!whole) return std::nullopt;
    std::copy_n(all.begin() + 3, mv::kWords, words.begin());
    return words;
}

std::vector<std::uint64_t> log_of(const Words& words) {
    const auto count = static_cast<std::ptrdiff_t>(words[1]);
    return {words.begin() + 2, words.begin() + 2 + count};
}

struct Told {
    std::uint64_t txn, record;
};

struct Journal {
    std::vector<std::uint64_t> firsts;  // each restart's first number
    std::map<std::uint64_t, std::map<std::uint64_t, std::uint64_t>> wrote;  // by transaction, then tube: the last value
    std::vector<Told> told;
};

void take_line(Journal& journal, const std::string& text) {
    std::istringstream line{text};
    std::string event;
    line >> event;
    std::vector<std::uint64_t> n;
    for (std::uint64_t number; line >> number;) n.push_back(number);
    if (!line.eof()) event.clear();
    if (event == "restart" && n.size() == 1) {
        for (const Told& told : journal.told)
            if (told.txn >= n[0]) complain("transaction " + std::to_string(told.txn) + " was told, and is forgotten");
        journal.wrote.erase(journal.wrote.lower_bound(n[0]), journal.wrote.end());
        journal.firsts.push_back(n[0]);
    } else if (event == "wrote" && n.size() == 3) {
        journal.wrote[n[0]][n[1]] = n[2];
    } else if (event == "told" && n.size() == 2) {
        journal.told.push_back({n[0], n[1]});
    } else {
        complain("the journal has a line that is none: " + text);
    }
}

Journal journal_of(const std::string& path) {
    Journal journal;
    const std::string all = contents(path).value_or("");
    const std::string torn = " torn";
    for (std::size_t at = 0, end; (end = all.find('\n', at)) != all.npos; at = end + 1) {
        const std::string line = all.substr(at, end - at);
        const bool is_torn = line.size() >= torn.size() && line.substr(line.size() - torn.size()) == torn;
        if (!is_torn) take_line(journal, line);
    }
    return journal;
}

// Everyone told is in the log, under the number that was told, and was told once.
void check_told(const std::vector<std::uint64_t>& log, const Journal& journal) {
    std::set<std::uint64_t> seen;
    for (const Told& told : journal.told) {
        const std::string who = "transaction " + std::to_string(told.txn);
        if (!seen.insert(told.txn).second) complain(who + " was told twice");
        if (told.record == 0 || told.record > log.size() || log[told.record - 1] != told.txn)
            complain(who + " was told record " + std::to_string(told.record) + ", which is not in the log");
    }
}

// Everyone in the log is there once, wrote, and was told, but for the last batch of a run: a kill may have come before.
void check_logged(const std::vector<std::uint64_t>& log, const Journal& journal) {
    std::set<std::uint64_t> told, seen;
    for (const Told& one : journal.told) told.insert(one.txn);
    std::map<std::ptrdiff_t, std::size_t> untold;  // by run: how many records so far
    for (const std::uint64_t txn : log) {
        const std::string who = "transaction " + std::to_string(txn);
        if (!seen.insert(txn).second) complain(who + " is in the log twice");
        if (!journal.wrote.count(txn)) complain(who + " is in the log, and the journal has no write of it");
        const auto began = [&](std::uint64_t first) { return first <= txn; };
        const auto run = std::count_if(journal.firsts.begin(), journal.firsts.end(), began);
        if (!told.count(txn) && ++untold[run] > kBatch) complain(who + " was not told, nor was a batch before it");
        if (told.count(txn) && untold.count(run)) complain(who + " was told, and one before it in its run was not");
    }
}

// Each tube holds what the log, replayed from its first record, makes of it.
void check_tubes(const std::vector<std::uint64_t>& log, const Journal& journal, mv::LentTables tables) {
    std::map<std::uint64_t, std::uint64_t> holds;
    for (const std::uint64_t txn : log) {
        const auto wrote = journal.wrote.find(txn);
        if (wrote == journal.wrote.end()) continue;
        for (const auto& [tube, value] : wrote->second) holds[tube] = value;
    }
    for (std::uint8_t tube = 0; tube < MV_OBJECTS; ++tube) {
        const mv::Answer looked = tables.look(mv::Obj{tube});
        if (looked.done() && looked.value() == holds[tube]) continue;
        complain("tube " + std::to_string(tube) + " holds " + std::to_string(looked.value()) + ", by the log " +
                 std::to_string(holds[tube]));
    }
}

void check(const std::string& folder, const std::string& before_path) {
    const auto before = words_of(before_path), found = words_of(folder + "/tables");
    if (!before) return complain("the earlier tables are not a whole file");
    if (!found) return complain("the tables are not a whole file");
    Words after = *found;
    mv::LentTables tables{after};
    if (!tables.restart().done()) return complain("the tables are not sound");
    const Words once = after;
    if (tables.restart().value() != 0 || after != once) complain("a second restart does something");

    const std::vector<std::uint64_t> log = log_of(after), earlier = log_of(*before);
    const bool goes_on = earlier.size() <= log.size() && std::equal(earlier.begin(), earlier.end(), log.begin());
    if (!goes_on) complain("the log does not go on from the log before the kill");
    if (log != log_of(*found)) complain("the restart changes the log");
    if (after[0] < (*before)[0]) complain("the next number has gone back");

    const Journal journal = journal_of(folder + "/journal");
    check_told(log, journal);
    check_logged(log, journal);
    check_tubes(log, journal, tables);
    if (complaints == 0) std::printf("records %zu\n", log.size());
}

}  // namespace

int main(int count, char** words) {
    if (count != 3) {
        std::fprintf(stderr, "usage: check FOLDER BEFORE\n");
        return 2;
    }
    check(words[1], words[2]);
    return complaints == 0 ? 0 : 1;
}
