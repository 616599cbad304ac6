// Balls round nodes, which have to hold the balls of the nodes below.
#pragma once

#include <cstdint>
#include <vector>

#include "mesh.h"

namespace bmtg {

struct Ball {
    Point centre{};
    std::int64_t radius = 0;
};

// As the checker sees it: r >= r' and |c - c'|^2 <= (r - r')^2.
bool contains(const Ball& outer, const Ball& inner);

// A ball round all points.
Ball ball_of_all(const std::vector<Point>& points);

// A small ball that contains the points of those numbers and the balls. Where it would reach beyond `whole`, which has
// to contain them all, it is `whole` itself: so no ball is wider than the mesh, and radii keep within the format.
Ball ball_round(const std::vector<Point>& points, const std::vector<std::uint32_t>& numbers,
                const std::vector<Ball>& balls, const Ball& whole);

}  // namespace bmtg
