// Writing a patch file, whole or not at all.
#pragma once

#include <cstdint>
#include <string>

#include "graph.h"

namespace bmtg {

// A file that is written beside its place, and moved there when it is whole. If the program is interrupted before, or
// this object ends without `keep`, nothing of it stays.
class WholeFile {
public:
    explicit WholeFile(const std::string& path);
    WholeFile(const WholeFile&) = delete;
    WholeFile& operator=(const WholeFile&) = delete;
    ~WholeFile();

    void write(const void* bytes, std::size_t count);
    void close();  // all bytes are with the system
    void keep();   // moved to its place

private:
    [[noreturn]] void fail();

    const std::string path_, beside_;
    std::FILE* file_;
    int slot_;
};

// Lets interrupts take unfinished files away before the program ends.
void take_files_away_when_interrupted();

// Returns how many bytes were written.
std::uint64_t write_graph(WholeFile& file, const Graph& graph, const std::vector<Point>& points, int version);

}  // namespace bmtg
