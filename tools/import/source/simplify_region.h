// Simplifying one region of a level, with its border held.
#pragma once

#include <cstdint>
#include <vector>

#include "mesh.h"

namespace bmtg {

struct Simplified {
    std::vector<Triangle> triangles;
    double error =
        0;  // the greatest distance that was measured from the region to these triangles, or the library's own
};

// Simplifies the triangles to about half, by meshoptimizer. Points stay where they are or go; held are those whose
// `held` isn't 0 and the ends of edges that don't cancel in the region. Throws Fault where the sums of edges come out
// different. `depth` is how often triangles may be quartered where distances are measured.
Simplified simplify_region(const std::vector<Point>& points, const std::vector<Triangle>& region,
                           const std::vector<std::uint8_t>& held, std::uint32_t depth);

}  // namespace bmtg
