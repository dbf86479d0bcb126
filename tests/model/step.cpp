// The stepping program over the model: call lines on standard input, one answer line each on standard output.
#include <iostream>
#include <iterator>
#include <string>

#include "model.hpp"

int main() {
    const std::string text{std::istreambuf_iterator<char>(std::cin), {}};
    model::Tables tables;
    std::string out;
    for (std::size_t at = 0; at < text.size();) {
        const std::size_t feed = text.find('\n', at);
        const std::size_t end = feed == std::string::npos ? text.size() : feed + 1;
        out += model::write_answer(model::line(tables, std::string_view(text).substr(at, end - at)));
        at = end;
    }
    std::cout << out;
}
