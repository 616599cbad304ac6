#include "edges.h"

#include <algorithm>

namespace bmtg {

Sides::Sides(const std::vector<Triangle>& triangles, std::uint32_t points)
    : starts_(points + 1, 0), sides_(3 * triangles.size()) {
    const auto for_each = [&](const auto& visit) {
        for (const Triangle& triangle : triangles) {
            for (int i = 0; i < 3; ++i) {
                const std::uint32_t from = triangle.corner[i], to = triangle.corner[(i + 1) % 3];
                visit(std::min(from, to), Side{std::max(from, to), triangle.corner[(i + 2) % 3], from < to ? 1 : -1});
            }
        }
    };
    for_each([&](std::uint32_t lesser, const Side&) { ++starts_[lesser + 1]; });
    for (std::uint32_t i = 0; i < points; ++i) starts_[i + 1] += starts_[i];
    std::vector<std::uint32_t> next(starts_.begin(), starts_.end() - 1);
    for_each([&](std::uint32_t lesser, const Side& side) { sides_[next[lesser]++] = side; });
    for (std::uint32_t i = 0; i < points; ++i) {
        std::sort(sides_.begin() + starts_[i], sides_.begin() + starts_[i + 1],
                  [](const Side& x, const Side& y) { return x.greater < y.greater; });
    }
}

std::vector<Net> Sides::nets() const {
    std::vector<Net> found;
    for_each_edge([&](std::uint32_t a, const Side* first, const Side* end) {
        std::int32_t net = 0;
        for (const Side* it = first; it != end; ++it) net += it->direction;
        if (net != 0) found.push_back({a, first->greater, net});
    });
    return found;
}

}  // namespace bmtg
