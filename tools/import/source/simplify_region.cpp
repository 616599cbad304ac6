#include "simplify_region.h"

#include <meshoptimizer.h>

#include <algorithm>
#include <cfloat>
#include <cmath>

#include "edges.h"
#include "local_points.h"
#include "nearest.h"

namespace bmtg {
namespace {

std::vector<bool> held_points(const LocalPoints& local, const std::vector<Net>& nets,
                              const std::vector<std::uint8_t>& held) {
    std::vector<bool> all(local.count());
    for (std::uint32_t i = 0; i < local.count(); ++i) all[i] = held[local.points()[i]] != 0;
    for (const Net& net : nets) all[net.a] = all[net.b] = true;
    return all;
}

// The library doesn't move a point of which more than two copies stand in its list, whether they are used or not: so a
// point is held by two copies that nothing uses.
std::vector<float> positions_of(const std::vector<Place>& places, const std::vector<bool>& held) {
    std::vector<float> positions;
    positions.reserve(3 * places.size() + places.size());
    const auto add = [&](const Place& place) {
        for (const double value : place) positions.push_back(static_cast<float>(value));  // exact, below 2^24
    };
    for (const Place& place : places) add(place);
    for (std::size_t i = 0; i < places.size(); ++i) {
        if (!held[i]) continue;
        add(places[i]);
        add(places[i]);
    }
    return positions;
}

std::vector<Triangle> halved(const std::vector<Triangle>& triangles, const std::vector<float>& positions,
                             double& error) {
    std::vector<Triangle> kept(triangles.size());
    const std::size_t points = positions.size() / 3, stride = 3 * sizeof(float), target = triangles.size() / 2 * 3;
    float relative = 0;
    const std::size_t corners = meshopt_simplify(kept.front().corner, triangles.front().corner, 3 * triangles.size(),
                                                 positions.data(), points, stride, target, FLT_MAX, 0, &relative);
    kept.resize(corners / 3);
    error = double{relative} * meshopt_simplifyScale(positions.data(), points, stride);
    return kept;
}

Place halfway(const Place& a, const Place& b) { return {(a[0] + b[0]) / 2, (a[1] + b[1]) / 2, (a[2] + b[2]) / 2}; }

// The greatest distance to a surface among the places that were looked at.
class Farthest {
public:
    explicit Farthest(const Surface& surface) : surface_(surface) {}

    double look(const Place& place) {
        const double found = surface_.distance(place, near_);
        greatest_ = std::max(greatest_, found);
        return found;
    }

    // Looks at the middle, and in its quarters again, unless no place of the triangle can be farther than the greatest.
    void look_within(const Place& a, const Place& b, const Place& c, std::uint32_t depth) {
        const Place middle{(a[0] + b[0] + c[0]) / 3, (a[1] + b[1] + c[1]) / 3, (a[2] + b[2] + c[2]) / 3};
        const double found = look(middle);
        if (depth == 0) return;
        double reach = 0;
        for (const Place* corner : {&a, &b, &c}) {
            double square = 0;
            for (int axis = 0; axis < 3; ++axis)
                square += ((*corner)[axis] - middle[axis]) * ((*corner)[axis] - middle[axis]);
            reach = std::max(reach, square);
        }
        if (found + std::sqrt(reach) <= greatest_) return;
        const Place ab = halfway(a, b), bc = halfway(b, c), ca = halfway(c, a);
        look_within(ab, bc, ca, depth - 1);
        look_within(a, ab, ca, depth - 1);
        look_within(b, bc, ab, depth - 1);
        look_within(c, ca, bc, depth - 1);
    }

    double greatest() const { return greatest_; }

private:
    const Surface& surface_;
    double greatest_ = 0;
    std::uint32_t near_ = 0;
};

// From the points that are gone, the middles of edges, and with a depth above 0 places within triangles.
double measured(const LocalPoints& local, const Sides& sides, const std::vector<Place>& places,
                const std::vector<Triangle>& kept, const Surface& made, std::uint32_t depth) {
    std::vector<bool> stays(local.count(), false);
    for (const Triangle& triangle : kept) {
        for (const std::uint32_t corner : triangle.corner) stays[corner] = true;
    }
    Farthest farthest(made);
    for (std::uint32_t i = 0; i < local.count(); ++i) {
        if (!stays[i]) farthest.look(places[i]);
    }
    sides.for_each_edge([&](std::uint32_t a, const Side* first, const Side*) {
        farthest.look(halfway(places[a], places[first->greater]));
    });
    if (depth == 0) return farthest.greatest();
    for (const Triangle& triangle : local.triangles()) {
        const std::uint32_t* corner = triangle.corner;
        farthest.look_within(places[corner[0]], places[corner[1]], places[corner[2]], depth);
    }
    return farthest.greatest();
}

}  // namespace

Simplified simplify_region(const std::vector<Point>& points, const std::vector<Triangle>& region,
                           const std::vector<std::uint8_t>& held, std::uint32_t depth) {
    const LocalPoints local(region);
    const Sides sides(local.triangles(), local.count());
    const std::vector<Net> nets = sides.nets();
    std::vector<Place> places;
    places.reserve(local.count());
    for (const std::uint32_t point : local.points()) places.push_back(place_of(points[point]));

    Simplified made;
    const std::vector<float> positions = positions_of(places, held_points(local, nets, held));
    const std::vector<Triangle> kept = halved(local.triangles(), positions, made.error);
    if (!(Sides(kept, local.count()).nets() == nets)) {
        const Point& at = points[region.front().corner[0]];
        throw Fault("the simplifier changed the edges of a region, that of the grid point (" +
                    std::to_string(at.at[0]) + ", " + std::to_string(at.at[1]) + ", " + std::to_string(at.at[2]) + ")");
    }
    made.triangles.reserve(kept.size());
    for (const Triangle& triangle : kept) {
        Triangle whole{};
        for (int i = 0; i < 3; ++i) whole.corner[i] = local.points()[triangle.corner[i]];
        made.triangles.push_back(whole);
    }
    made.error = std::max(made.error, measured(local, sides, places, kept, Surface(points, made.triangles), depth));
    return made;
}

}  // namespace bmtg
