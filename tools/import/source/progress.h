// A line on the terminal that tells how far the import is.
#pragma once

#include <atomic>
#include <chrono>
#include <cstdint>
#include <mutex>
#include <string>

namespace bmtg {

// Threads may call it at the same time. It writes nothing where standard error is no terminal, or where it is quiet.
class Progress {
public:
    explicit Progress(bool quiet);
    ~Progress();

    void say(const std::string& what);  // a phase without a count
    void begin_level(std::uint32_t level, std::size_t regions);
    void region_done(std::size_t triangles);
    void clear();  // takes the line off the terminal

private:
    using Clock = std::chrono::steady_clock;
    void show(const std::string& text);

    const bool shown_;
    std::mutex guard_;
    std::uint32_t level_ = 0;
    std::size_t regions_ = 0, done_ = 0;
    std::uint64_t triangles_ = 0;  // of all levels so far
    Clock::time_point begun_, last_;
};

}  // namespace bmtg
