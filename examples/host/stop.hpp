// For the kill test alone: named steps at which the host can be made to kill itself, so that each is hit often and at
// will. HOST_STOP_AT=N in the environment makes the N-th step the last one, after a line on standard error that names
// it; HOST_STOP_AT=0 names every step and stops at none. Without the variable nothing here does anything.
#pragma once

#include <string>

namespace host::stop {

// Counts a step; gives whether it is the one to stop at.
bool here(const std::string& step);

// SIGKILL, as from outside: nothing is flushed, closed or undone.
[[noreturn]] void now();

inline void at(const std::string& step) {
    if (here(step)) now();
}

}  // namespace host::stop
