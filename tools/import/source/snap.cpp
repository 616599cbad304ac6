#include "snap.h"

#include <algorithm>
#include <cmath>
#include <limits>

namespace bmtg {
namespace {

constexpr std::uint32_t kNone = std::numeric_limits<std::uint32_t>::max();

// Gives each place of the grid one number, in the order in which places are first asked for.
class PointNumbers {
public:
    PointNumbers(std::vector<Point>& points, std::size_t expected) : points_(points) {
        std::size_t size = 16;
        while (size < 2 * expected) size *= 2;
        table_.assign(size, kNone);
    }

    std::uint32_t number_of(const Point& point) {
        std::size_t slot = hash_of(point) & (table_.size() - 1);
        while (table_[slot] != kNone) {
            if (points_[table_[slot]] == point) return table_[slot];
            slot = (slot + 1) & (table_.size() - 1);
        }
        table_[slot] = static_cast<std::uint32_t>(points_.size());
        points_.push_back(point);
        return table_[slot];
    }

private:
    static std::size_t hash_of(const Point& point) {
        std::uint64_t mixed = 0;
        for (const std::int32_t value : point.at) {
            mixed = (mixed ^ static_cast<std::uint32_t>(value)) * 0x9E3779B97F4A7C15u;
            mixed ^= mixed >> 29;
        }
        return static_cast<std::size_t>(mixed);
    }

    std::vector<Point>& points_;
    std::vector<std::uint32_t> table_;
};

Point snapped(const std::array<float, 3>& place, const Placement& placement) {
    Point point{};
    for (int axis = 0; axis < 3; ++axis) {
        const double units = std::round((place[axis] - placement.offset[axis]) / placement.unit);
        if (!(std::abs(units) <= kGridEnd)) {
            throw Fault("with the unit " + std::to_string(placement.unit) +
                        " the mesh doesn't fit the grid, which has 2097152 units on each axis");
        }
        point.at[axis] = static_cast<std::int32_t>(units);
    }
    return point;
}

Triangle turned_to_least(const Triangle& triangle) {
    const std::uint32_t* corner = triangle.corner;
    const int first = static_cast<int>(std::min_element(corner, corner + 3) - corner);
    return {{corner[first], corner[(first + 1) % 3], corner[(first + 2) % 3]}};
}

bool before(const Triangle& a, const Triangle& b) {
    return std::lexicographical_compare(a.corner, a.corner + 3, b.corner, b.corner + 3);
}

// Drops triangles that stood before. They are laid out by their least corner first, so that only a few are compared.
std::uint64_t drop_doubled(Mesh& mesh) {
    std::vector<std::uint32_t> ends(mesh.points.size() + 1, 0);
    for (Triangle& triangle : mesh.triangles) {
        triangle = turned_to_least(triangle);
        ++ends[triangle.corner[0] + 1];
    }
    for (std::size_t i = 1; i < ends.size(); ++i) ends[i] += ends[i - 1];
    std::vector<std::uint32_t> order(mesh.triangles.size());
    std::vector<std::uint32_t> next(ends.begin(), ends.end() - 1);
    for (std::uint32_t i = 0; i < mesh.triangles.size(); ++i) order[next[mesh.triangles[i].corner[0]]++] = i;

    std::vector<bool> doubled(mesh.triangles.size(), false);
    std::uint64_t count = 0;
    for (std::size_t point = 0; point + 1 < ends.size(); ++point) {
        const auto begin = order.begin() + ends[point], end = order.begin() + ends[point + 1];
        std::sort(begin, end, [&](std::uint32_t a, std::uint32_t b) {
            if (before(mesh.triangles[a], mesh.triangles[b])) return true;
            return !before(mesh.triangles[b], mesh.triangles[a]) && a < b;
        });
        for (auto it = begin; it != end && it + 1 != end; ++it) {
            if (before(mesh.triangles[it[0]], mesh.triangles[it[1]])) continue;
            doubled[it[1]] = true;
            ++count;
        }
    }
    if (count == 0) return 0;
    std::size_t kept = 0;
    for (std::size_t i = 0; i < mesh.triangles.size(); ++i) {
        if (!doubled[i]) mesh.triangles[kept++] = mesh.triangles[i];
    }
    mesh.triangles.resize(kept);
    return count;
}

}  // namespace

Placement place_mesh(const RawMesh& raw, double unit, double most_units) {
    Placement placement;
    double low[3], high[3], span = 0;
    std::fill(low, low + 3, std::numeric_limits<double>::infinity());
    std::fill(high, high + 3, -std::numeric_limits<double>::infinity());
    for (const Triangle& triangle : raw.triangles) {
        for (const std::uint32_t corner : triangle.corner) {
            for (int axis = 0; axis < 3; ++axis) {
                low[axis] = std::min(low[axis], double{raw.points[corner][axis]});
                high[axis] = std::max(high[axis], double{raw.points[corner][axis]});
            }
        }
    }
    for (int axis = 0; axis < 3; ++axis) span = std::max(span, high[axis] - low[axis]);
    placement.unit = unit;
    if (unit == 0) placement.unit = span > 0 ? std::exp2(std::ceil(std::log2(span / most_units))) : 1;
    for (int axis = 0; axis < 3; ++axis) {
        placement.offset[axis] = std::round((low[axis] + high[axis]) / 2 / placement.unit) * placement.unit;
    }
    return placement;
}

Mesh snap_mesh(const RawMesh& raw, const Placement& placement, Dropped& dropped) {
    Mesh mesh;
    std::vector<std::uint32_t> number(raw.points.size(), kNone);
    PointNumbers numbers(mesh.points, raw.points.size());
    std::uint64_t used = 0;
    mesh.triangles.reserve(raw.triangles.size());
    for (const Triangle& triangle : raw.triangles) {
        Triangle found{};
        for (int i = 0; i < 3; ++i) {
            const std::uint32_t corner = triangle.corner[i];
            if (number[corner] == kNone) {
                number[corner] = numbers.number_of(snapped(raw.points[corner], placement));
                ++used;
            }
            found.corner[i] = number[corner];
        }
        const std::uint32_t* c = found.corner;
        if (c[0] == c[1] || c[1] == c[2] || c[2] == c[0]) {
            ++dropped.flat;
        } else {
            mesh.triangles.push_back(found);
        }
    }
    dropped.joined = used - mesh.points.size();
    dropped.unused = raw.points.size() - used;
    if (mesh.triangles.empty()) {
        throw Fault("all " + std::to_string(raw.triangles.size()) + " triangles are flat in the grid");
    }
    dropped.doubled = drop_doubled(mesh);
    return mesh;
}

}  // namespace bmtg
