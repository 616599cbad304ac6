#include "rims.h"

#include <cmath>

#include "edges.h"
#include "nearest.h"

namespace bmtg {
namespace {

// The direction from the edge (a, b) to c at a right angle to the edge, of length 1; zeros where c lies on its line.
Place across_edge(const Place& a, const Place& b, const Place& c) {
    Place edge, side;
    for (int axis = 0; axis < 3; ++axis) {
        edge[axis] = b[axis] - a[axis];
        side[axis] = c[axis] - a[axis];
    }
    const auto dot = [](const Place& x, const Place& y) { return x[0] * y[0] + x[1] * y[1] + x[2] * y[2]; };
    const double along = dot(side, edge) / dot(edge, edge);
    for (int axis = 0; axis < 3; ++axis) side[axis] -= along * edge[axis];
    const double length = std::sqrt(dot(side, side));
    for (double& value : side) value = length > 0 ? value / length : 0;
    return side;
}

// Whether the surface turns back at an edge: all its triangles lie on one side of it, and in planes that are no more
// than 2.5 degrees apart. A triangle whose corners are on one line tells nothing, and some such stand along rims: so it
// is a rim where all are such, but not where only one isn't, as at the edges of a box.
bool is_rim(const std::vector<Point>& points, std::uint32_t a, const Side* first, const Side* end) {
    const Place from = place_of(points[a]), to = place_of(points[first->greater]);
    Place one{};
    int telling = 0;
    for (const Side* it = first; it != end; ++it) {
        const Place other = across_edge(from, to, place_of(points[it->across]));
        if (other == Place{}) continue;
        if (telling++ == 0) one = other;
        if (one[0] * other[0] + one[1] * other[1] + one[2] * other[2] < 0.999) return false;
    }
    return telling != 1;
}

}  // namespace

std::vector<std::uint8_t> rim_points(const Mesh& mesh) {
    std::vector<std::uint8_t> rims(mesh.points.size(), 0);
    const Sides sides(mesh.triangles, static_cast<std::uint32_t>(mesh.points.size()));
    sides.for_each_edge([&](std::uint32_t a, const Side* first, const Side* end) {
        if (end - first > 1 && is_rim(mesh.points, a, first, end)) rims[a] = rims[first->greater] = 1;
    });
    return rims;
}

}  // namespace bmtg
