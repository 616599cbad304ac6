#include "graph.h"

#include <algorithm>
#include <cmath>

#include "local_points.h"

namespace bmtg {
namespace {

using Part = std::vector<Triangle>::iterator;

struct Spread {
    std::int32_t low[3], high[3];
    std::int64_t span(int axis) const { return std::int64_t{high[axis]} - low[axis]; }
    int longest() const {
        const int of_two = span(1) > span(0) ? 1 : 0;
        return span(2) > span(of_two) ? 2 : of_two;
    }
};

Spread spread_of(const std::vector<Point>& points, Part begin, Part end) {
    Spread spread;
    std::copy_n(points[begin->corner[0]].at, 3, spread.low);
    std::copy_n(spread.low, 3, spread.high);
    for (Part it = begin; it != end; ++it) {
        for (const std::uint32_t corner : it->corner) {
            for (int axis = 0; axis < 3; ++axis) {
                spread.low[axis] = std::min(spread.low[axis], points[corner].at[axis]);
                spread.high[axis] = std::max(spread.high[axis], points[corner].at[axis]);
            }
        }
    }
    return spread;
}

// Puts the triangles with the lesser middles along the axis before `middle`.
void part_by(const std::vector<Point>& points, Part begin, Part middle, Part end, int axis) {
    const auto sum = [&](const Triangle& triangle) {
        std::int64_t along = 0;
        for (const std::uint32_t corner : triangle.corner) along += points[corner].at[axis];
        return along;
    };
    std::nth_element(begin, middle, end, [&](const Triangle& a, const Triangle& b) {
        const std::int64_t of_a = sum(a), of_b = sum(b);
        if (of_a != of_b) return of_a < of_b;
        return std::lexicographical_compare(a.corner, a.corner + 3, b.corner, b.corner + 3);
    });
}

Patch patch_of(const std::vector<Triangle>& triangles, std::uint32_t tail, std::uint32_t head) {
    const LocalPoints local(triangles);
    Patch patch{tail, head, local.points(), {}};
    patch.corners.reserve(3 * triangles.size());
    for (const Triangle& triangle : local.triangles()) {
        for (const std::uint32_t corner : triangle.corner) patch.corners.push_back(static_cast<std::uint16_t>(corner));
    }
    return patch;
}

struct Splitter {
    const std::vector<Point>& points;
    std::uint32_t tail, head;
    const PatchLimits& limits;
    std::vector<Patch>& patches;

    void add(Part begin, Part end) {
        const auto count = static_cast<std::size_t>(end - begin);
        const Spread spread = spread_of(points, begin, end);
        const int axis = spread.longest();
        const bool wide = limits.version == 2 && spread.span(axis) > kSpanLimit;
        if (wide && count == 1) throw TooWide{spread.span(axis)};
        if (!wide && count <= limits.triangles) {
            Patch patch = patch_of({begin, end}, tail, head);
            if (patch.points.size() <= kCountLimit) {
                patches.push_back(std::move(patch));
                return;
            }
        }
        const std::size_t parts = std::max<std::size_t>(2, (count + limits.triangles - 1) / limits.triangles);
        const Part middle = begin + static_cast<std::ptrdiff_t>(count * (parts / 2) / parts);
        part_by(points, begin, middle, end, axis);
        add(begin, middle);
        add(middle, end);
    }
};

}  // namespace

std::uint32_t error_in_file(const Node& node) {
    return static_cast<std::uint32_t>(std::min(std::ceil(node.error), double(kErrorLimit)));
}

void add_patches(const std::vector<Point>& points, std::vector<Triangle>& triangles, std::uint32_t tail,
                 std::uint32_t head, const PatchLimits& limits, std::vector<Patch>& patches) {
    Splitter{points, tail, head, limits, patches}.add(triangles.begin(), triangles.end());
}

}  // namespace bmtg
