#include "progress.h"

#include <unistd.h>

#include <cstdio>

namespace bmtg {

Progress::Progress(bool quiet) : shown_(!quiet && isatty(STDERR_FILENO)), begun_(Clock::now()) {}

Progress::~Progress() { clear(); }

void Progress::say(const std::string& what) {
    const std::lock_guard<std::mutex> lock(guard_);
    show(what);
}

void Progress::begin_level(std::uint32_t level, std::size_t regions) {
    const std::lock_guard<std::mutex> lock(guard_);
    if (level == 0) begun_ = Clock::now();
    level_ = level;
    regions_ = regions;
    done_ = 0;
}

void Progress::region_done(std::size_t triangles) {
    if (!shown_) return;
    const std::lock_guard<std::mutex> lock(guard_);
    ++done_;
    triangles_ += triangles;
    const auto now = Clock::now();
    if (done_ < regions_ && now - last_ < std::chrono::milliseconds(100)) return;
    last_ = now;
    const double seconds = std::chrono::duration<double>(now - begun_).count();
    constexpr std::size_t kWidth = 24;
    const std::size_t full = kWidth * done_ / regions_;
    char rate[32];
    std::snprintf(rate, sizeof rate, "%.2f", seconds > 0 ? double(triangles_) / seconds / 1e6 : 0.0);
    show("level " + std::to_string(level_) + " [" + std::string(full, '#') + std::string(kWidth - full, '.') + "] " +
         std::to_string(done_) + " of " + std::to_string(regions_) + " regions, " + rate +
         " million triangles a second");
}

void Progress::clear() {
    const std::lock_guard<std::mutex> lock(guard_);
    show("");
}

// Goes back to the line's begin, writes, and takes off what stood behind.
void Progress::show(const std::string& text) {
    if (!shown_) return;
    std::fprintf(stderr, "\r%s\x1b[K", text.c_str());
    std::fflush(stderr);
}

}  // namespace bmtg
