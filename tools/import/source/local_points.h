// Numbering the points of a part of the mesh.
#pragma once

#include <cstdint>
#include <limits>
#include <vector>

#include "mesh.h"

namespace bmtg {

// Gives the points of a list of triangles numbers from 0, in the order in which they stand there first.
class LocalPoints {
public:
    explicit LocalPoints(const std::vector<Triangle>& triangles) {
        std::size_t size = 16;
        while (size <= 3 * triangles.size()) size *= 2;
        table_.assign(size, {kNone, 0});
        triangles_.reserve(triangles.size());
        for (const Triangle& triangle : triangles) {
            const std::uint32_t* corner = triangle.corner;
            triangles_.push_back({{number_of(corner[0]), number_of(corner[1]), number_of(corner[2])}});
        }
    }

    // The point of each number, and the triangles in these numbers.
    const std::vector<std::uint32_t>& points() const { return points_; }
    const std::vector<Triangle>& triangles() const { return triangles_; }
    std::uint32_t count() const { return static_cast<std::uint32_t>(points_.size()); }

private:
    static constexpr std::uint32_t kNone = std::numeric_limits<std::uint32_t>::max();
    struct Slot {
        std::uint32_t point, number;
    };

    // A slot is always free: there are at most three points a triangle, and more slots.
    std::uint32_t number_of(std::uint32_t point) {
        const std::size_t mask = table_.size() - 1;
        std::size_t at = (point * 0x9E3779B97F4A7C15u >> 20) & mask;
        while (table_[at].point != kNone) {
            if (table_[at].point == point) return table_[at].number;
            at = (at + 1) & mask;
        }
        table_[at] = {point, count()};
        points_.push_back(point);
        return table_[at].number;
    }

    std::vector<Slot> table_;
    std::vector<std::uint32_t> points_;
    std::vector<Triangle> triangles_;
};

}  // namespace bmtg
