#include "options.h"

#include <algorithm>
#include <cmath>
#include <cstdio>
#include <cstdlib>
#include <thread>

namespace bmtg {
namespace {

constexpr const char* kHelp =
    "bmtg-import [OPTION ..] IN OUT.bmtg\n"
    "\n"
    "Makes a patch file of a mesh (PLY, OBJ, STL, OFF, glTF), and OUT.json, which tells its scale and what was "
    "dropped.\n"
    "\n"
    "  --unit U        how much of the input one unit of the grid is; else a power of two that suits the mesh\n"
    "  --triangles N   of a patch, at most, 8 to 65535 (1024); a region has up to four times as many\n"
    "  --version V     of the file, 1 or 2 (1); in 2 a patch spans at most 65535 units, so the unit is coarser\n"
    "  --threads T     1 to 256 (as many as the machine has processors)\n"
    "  --measure       tell how far frames are from points of the input\n"
    "  --quiet         write nothing but faults\n";

[[noreturn]] void wrong(const std::string& what) {
    std::fprintf(stderr, "bmtg-import: %s\n(bmtg-import --help tells the options)\n", what.c_str());
    std::exit(2);
}

std::uint32_t whole_number(const std::string& option, const std::string& word, std::uint32_t least,
                           std::uint32_t most) {
    std::uint64_t value = 0;
    bool good = !word.empty() && word.size() < 10;
    for (const char letter : word) {
        good = good && letter >= '0' && letter <= '9';
        value = 10 * value + static_cast<std::uint64_t>(letter - '0');
    }
    if (!good || value < least || value > most) {
        wrong(option + " takes a number from " + std::to_string(least) + " to " + std::to_string(most) + ", not " +
              word);
    }
    return static_cast<std::uint32_t>(value);
}

double unit_of(const std::string& word) {
    char* end = nullptr;
    const double unit = std::strtod(word.c_str(), &end);
    if (word.empty() || *end != 0 || !std::isnormal(unit) || unit <= 0)
        wrong("--unit takes a number above 0, not " + word);
    return unit;
}

std::string with_json(const std::string& output) {
    const std::string ending = ".bmtg";
    const bool ends =
        output.size() > ending.size() && output.compare(output.size() - ending.size(), ending.size(), ending) == 0;
    return (ends ? output.substr(0, output.size() - ending.size()) : output) + ".json";
}

}  // namespace

Options read_options(int count, char** words) {
    Options options;
    options.threads = std::max(1u, std::min(256u, std::thread::hardware_concurrency()));
    bool only_names = false;
    for (int at = 1; at < count; ++at) {
        const std::string word = words[at];
        const auto value = [&]() -> std::string {
            if (at + 1 == count) wrong(word + " lacks its value");
            return words[++at];
        };
        if (only_names || word.size() < 2 || word[0] != '-') {
            if (!options.output.empty()) wrong("there is one word too many, " + word);
            (options.input.empty() ? options.input : options.output) = word;
        } else if (word == "--") {
            only_names = true;
        } else if (word == "--help") {
            std::fputs(kHelp, stdout);
            std::exit(0);
        } else if (word == "--unit") {
            options.unit = unit_of(value());
        } else if (word == "--triangles") {
            options.triangles = whole_number(word, value(), 8, 65'535);
        } else if (word == "--version") {
            options.version = static_cast<int>(whole_number(word, value(), 1, 2));
        } else if (word == "--threads") {
            options.threads = whole_number(word, value(), 1, 256);
        } else if (word == "--measure") {
            options.measure = true;
        } else if (word == "--quiet") {
            options.quiet = true;
        } else {
            wrong("there is no option " + word);
        }
    }
    if (options.output.empty()) wrong("it takes two names, of the mesh and of the patch file");
    options.told = with_json(options.output);
    if (options.output == options.input || options.told == options.input) wrong("it doesn't write over the mesh");
    return options;
}

}  // namespace bmtg
