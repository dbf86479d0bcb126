// One booking from start to finish, with the core as a library: 120 of the 500 microlitres in tube 5 are loaded.
#include <cstdint>
#include <cstdio>

#include <mv.hpp>

// Says what a call answered; gives whether it was done.
static bool did(const char* call, mv::Answer answer) {
    const std::string_view name = answer.name();
    std::printf("%-8s %.*s, %llu\n", call, static_cast<int>(name.size()), name.data(),
                static_cast<unsigned long long>(answer.value()));
    return answer.done();
}

// A transaction that sets the tube's volume to what `change` makes of it, committed and settled.
template <class Change>
static bool book(mv::Tables& tables, mv::Obj tube, Change change) {
    const mv::Answer started = tables.start();
    if (!did("start", started)) return false;
    const mv::Txn txn = started.txn();
    const mv::Answer read = tables.read(txn, tube);
    return did("read", read) && did("write", tables.write(txn, tube, change(read.value()))) &&
           did("prepare", tables.prepare(txn, tube)) && did("save", tables.save(tube)) &&
           did("commit", tables.commit(txn)) && did("settle", tables.settle(tube));
}

int main() {
    mv::Tables tables;
    const mv::Obj tube{5};
    const bool filled = book(tables, tube, [](std::uint64_t) { return std::uint64_t{500}; });
    const bool loaded = filled && book(tables, tube, [](std::uint64_t volume) { return volume - 120; });
    if (!loaded) return 1;
    std::printf("tube 5 holds %llu microlitres\n", static_cast<unsigned long long>(tables.look(tube).value()));
    return tables.look(tube).value() == 380 ? 0 : 1;
}
