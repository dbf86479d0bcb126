// A text of bookings: its lines, and what each asks for.
//
//     fill TUBE VOLUME         so much is added to the tube
//     load TUBE VOLUME         so much is taken from the tube
//     move FROM TO VOLUME      taken from one tube and added to another, both or neither
//     measure TUBE VOLUME      the tube holds so much, whatever was booked: written without being read
//
// Words stand apart by blanks. Tubes are 0 to 31, volumes whole microlitres from 0 up. Empty lines and lines that
// begin with # ask for nothing. A last line without its line feed is no booking: it may be the beginning of another.
#pragma once

#include <cstddef>
#include <cstdint>
#include <optional>
#include <string>
#include <string_view>
#include <vector>

#include <mv.hpp>

namespace host {

struct Change {
    enum class Kind { add, take, set };
    Kind kind;
    mv::Obj tube;
    std::uint64_t volume;
};

// What one transaction does: each change of another tube.
struct Booking {
    std::vector<Change> changes;
};

// Why a line is no booking.
struct BadLine {
    std::string why;
};

// The line's booking, without changes where it asks for nothing. Throws BadLine.
Booking parse(std::string_view line);

class Lines {
public:
    struct Line {
        std::size_t number;
        std::string text;
        bool ended;  // by a line feed
    };

    explicit Lines(int fd) : fd_(fd) {}

    // Whether the next line is here already.
    bool at_hand() const;

    // The next line, once it has come; none at the end. Of a line that is too long to be a booking the rest is dropped.
    std::optional<Line> next();

private:
    int fd_;
    std::string read_;
    std::size_t count_ = 0;
};

}  // namespace host
