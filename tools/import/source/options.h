// The words of the command.
#pragma once

#include <cstdint>
#include <string>

namespace bmtg {

struct Options {
    std::string input, output;
    std::string told;  // OUT.json
    double unit = 0;   // 0: chosen
    std::uint32_t triangles = 1024;
    int version = 1;
    unsigned threads = 1;
    bool measure = false, quiet = false;
};

// Ends the program where help is asked for (0) or a word is wrong (2).
Options read_options(int count, char** words);

}  // namespace bmtg
