// The mesh in the grid, and the numbers of the file format that the importer has to keep.
#pragma once

#include <cstdint>
#include <stdexcept>
#include <string>
#include <vector>

namespace bmtg {

constexpr std::int32_t kGridEnd = 1'048'576;  // coordinates are in -kGridEnd to kGridEnd
constexpr std::uint32_t kErrorLimit = 1'048'576;
constexpr std::uint32_t kNodeLimit = 65'536;
constexpr std::uint32_t kPatchLimit = 65'536;
constexpr std::uint32_t kCountLimit = 65'535;  // points of a patch, triangles of a patch
constexpr std::int64_t kSpanLimit = 65'535;    // of a patch on each axis, in version 2

struct Point {
    std::int32_t at[3];
    bool operator==(const Point& other) const {
        return at[0] == other.at[0] && at[1] == other.at[1] && at[2] == other.at[2];
    }
};

// Three numbers of points, in the order in which the surface is seen counter-clockwise.
struct Triangle {
    std::uint32_t corner[3];
};

// Points are all different, so two corners are equal exactly where their numbers are.
struct Mesh {
    std::vector<Point> points;
    std::vector<Triangle> triangles;
};

// What ends the import: a line for people, which names the place.
struct Fault : std::runtime_error {
    using std::runtime_error::runtime_error;
};

inline std::int64_t squared_distance(const Point& a, const Point& b) {
    std::int64_t sum = 0;
    for (int axis = 0; axis < 3; ++axis) {
        const std::int64_t step = std::int64_t{a.at[axis]} - b.at[axis];
        sum += step * step;
    }
    return sum;
}

}  // namespace bmtg
