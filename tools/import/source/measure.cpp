#include "measure.h"

#include <algorithm>
#include <cmath>
#include <random>

#include "workers.h"

namespace bmtg {
namespace {

std::array<Place, 3> corners_of(const RawMesh& raw, const Triangle& triangle, const Placement& placement) {
    std::array<Place, 3> corners{};
    for (int i = 0; i < 3; ++i) {
        for (int axis = 0; axis < 3; ++axis) {
            corners[i][axis] = (raw.points[triangle.corner[i]][axis] - placement.offset[axis]) / placement.unit;
        }
    }
    return corners;
}

double area_of(const std::array<Place, 3>& c) {
    double square = 0;
    for (int axis = 0; axis < 3; ++axis) {
        const int y = (axis + 1) % 3, z = (axis + 2) % 3;
        const double part = (c[1][y] - c[0][y]) * (c[2][z] - c[0][z]) - (c[1][z] - c[0][z]) * (c[2][y] - c[0][y]);
        square += part * part;
    }
    return std::sqrt(square) / 2;
}

struct Frame {
    std::vector<Triangle> triangles;
    std::uint32_t told = 0;
};

// The nodes whose error is above the given one are a cut, since errors don't rise along patches; the root is in it.
Frame frame_of(const Graph& graph, std::uint32_t error) {
    const auto is_in = [&](std::uint32_t node) { return node == 0 || error_in_file(graph.nodes[node]) > error; };
    Frame frame;
    for (const Patch& patch : graph.patches) {
        if (!is_in(patch.tail) || is_in(patch.head)) continue;
        frame.told = std::max(frame.told, error_in_file(graph.nodes[patch.head]));
        for (std::size_t i = 0; i < patch.corners.size(); i += 3) {
            const std::uint16_t* corner = &patch.corners[i];
            frame.triangles.push_back({{patch.points[corner[0]], patch.points[corner[1]], patch.points[corner[2]]}});
        }
    }
    return frame;
}

Measured measure(const Frame& frame, std::uint32_t error, const std::vector<Point>& points,
                 const std::vector<Place>& places, unsigned threads) {
    const Surface surface(points, frame.triangles);
    std::vector<double> distances(places.size());
    constexpr std::size_t kBlock = 1024;
    do_all((places.size() + kBlock - 1) / kBlock, threads, [&](std::size_t block) {
        std::uint32_t near = 0;
        const std::size_t end = std::min(places.size(), (block + 1) * kBlock);
        for (std::size_t i = block * kBlock; i < end; ++i) distances[i] = surface.distance(places[i], near);
    });
    std::sort(distances.begin(), distances.end());
    double sum = 0;
    for (const double distance : distances) sum += distance;
    const auto nearly_all = static_cast<std::size_t>(double(distances.size() - 1) * 0.999);
    return {error,           frame.triangles.size(), frame.told, sum / double(distances.size()), distances[nearly_all],
            distances.back()};
}

}  // namespace

std::vector<Place> draw_places(const RawMesh& raw, const Placement& placement, std::size_t count) {
    std::vector<double> sums;
    sums.reserve(raw.triangles.size());
    double sum = 0;
    for (const Triangle& triangle : raw.triangles) sums.push_back(sum += area_of(corners_of(raw, triangle, placement)));
    std::mt19937_64 random(1);
    const auto share = [&] { return double(random() >> 11) * 0x1p-53; };
    std::vector<Place> places;
    for (std::size_t i = 0; i < count; ++i) {
        const double at = sum * (double(i) + share()) / double(count);
        const auto found =
            std::min<std::size_t>(std::upper_bound(sums.begin(), sums.end(), at) - sums.begin(), sums.size() - 1);
        const auto corners = corners_of(raw, raw.triangles[found], placement);
        double a = share(), b = share();
        if (a + b > 1) {
            a = 1 - a;
            b = 1 - b;
        }
        Place place{};
        for (int axis = 0; axis < 3; ++axis) {
            place[axis] = corners[0][axis] + a * (corners[1][axis] - corners[0][axis]) +
                          b * (corners[2][axis] - corners[0][axis]);
        }
        places.push_back(place);
    }
    return places;
}

std::vector<Measured> measure_frames(const Graph& graph, const std::vector<Point>& points,
                                     const std::vector<Place>& places, unsigned threads) {
    std::uint32_t greatest = 0;
    for (std::uint32_t node = 1; node < graph.sink(); ++node)
        greatest = std::max(greatest, error_in_file(graph.nodes[node]));
    std::vector<std::uint32_t> errors{0};
    for (std::uint32_t error = greatest; error > 0; error /= 4) errors.insert(errors.begin() + 1, error);
    std::vector<Measured> found;
    for (const std::uint32_t error : errors) {
        const Frame frame = frame_of(graph, error);
        const bool is_new = found.empty() || frame.triangles.size() != found.back().triangles;
        if (is_new) found.push_back(measure(frame, error, points, places, threads));
    }
    return found;
}

}  // namespace bmtg
