#include "journal.hpp"

#include <fcntl.h>
#include <unistd.h>

namespace host {

Journal::Journal(int folder) : file_(open_or_fail(folder, "journal", O_RDWR | O_APPEND | O_CREAT)) {
    host::sync(folder, "the folder of journal");
    const off_t size = ::lseek(file_.fd(), 0, SEEK_END);
    if (size < 0) system_refused("seek in journal");
    if (size == 0) return;
    if (::lseek(file_.fd(), size - 1, SEEK_SET) < 0) system_refused("seek in journal");
    if (read_up_to(file_.fd(), 1, "journal") != "\n") write_whole(file_.fd(), " torn\n", "a torn mark");
}

void Journal::began(mv::Txn txn) {
    if (!restarted_) add("restart", {txn.num});
    restarted_ = true;
}

void Journal::wrote(mv::Txn txn, mv::Obj tube, std::uint64_t value) {
    add("wrote", {txn.num, tube.num, value});
}

void Journal::told(mv::Txn txn, mv::Lsn record) {
    add("told", {txn.num, record.num});
}

void Journal::add(const std::string& event, std::initializer_list<std::uint64_t> numbers) {
    std::string line = event;
    for (const std::uint64_t number : numbers) line += " " + std::to_string(number);
    write_whole(file_.fd(), line + "\n", "a " + event + " line");
}

void Journal::sync() {
    host::sync(file_.fd(), "journal");
}

}  // namespace host
