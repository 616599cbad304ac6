// How far a place is from a surface.
#pragma once

#include <array>
#include <cstdint>
#include <vector>

#include "mesh.h"

namespace bmtg {

using Place = std::array<double, 3>;

inline Place place_of(const Point& point) { return {double(point.at[0]), double(point.at[1]), double(point.at[2])}; }

// A tree of boxes over a list of triangles, which has to outlive it, as its points have.
class Surface {
public:
    Surface(const std::vector<Point>& points, const std::vector<Triangle>& triangles);

    // The least distance to a triangle; infinite where there is none. `near` is where to look first, 0 at the
    // beginning, and is set to what was found: so a place that lies near the one before costs little.
    double distance(const Place& place, std::uint32_t& near) const;

private:
    struct Box {
        float low[3], high[3];
        std::uint32_t first, count;  // the triangles of a leaf; else count is 0, and first is the right child
    };

    std::uint32_t build(std::uint32_t begin, std::uint32_t end);
    double squared_to_triangle(const Place& place, std::uint32_t triangle) const;
    static double squared_to_box(const Place& place, const Box& box);

    const std::vector<Point>& points_;
    const std::vector<Triangle>& triangles_;
    std::vector<std::uint32_t> order_;
    std::vector<Box> boxes_;  // a node's left child stands behind it
};

}  // namespace bmtg
