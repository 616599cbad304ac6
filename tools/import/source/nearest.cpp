#include "nearest.h"

#include <algorithm>
#include <cmath>
#include <limits>

namespace bmtg {
namespace {

constexpr std::uint32_t kLeaf = 4;

Place less(const Place& a, const Place& b) { return {a[0] - b[0], a[1] - b[1], a[2] - b[2]}; }

double dot(const Place& a, const Place& b) { return a[0] * b[0] + a[1] * b[1] + a[2] * b[2]; }

double squared_to_point(const Place& p, const Place& a) { return dot(less(p, a), less(p, a)); }

double squared_to_segment(const Place& p, const Place& a, const Place& b) {
    const Place ab = less(b, a), ap = less(p, a);
    const double along = std::clamp(dot(ap, ab) / dot(ab, ab), 0.0, 1.0);
    return squared_to_point(ap, {along * ab[0], along * ab[1], along * ab[2]});
}

}  // namespace

Surface::Surface(const std::vector<Point>& points, const std::vector<Triangle>& triangles)
    : points_(points), triangles_(triangles), order_(triangles.size()) {
    for (std::uint32_t i = 0; i < order_.size(); ++i) order_[i] = i;
    boxes_.reserve(order_.size() + 1);
    if (!order_.empty()) build(0, static_cast<std::uint32_t>(order_.size()));
}

std::uint32_t Surface::build(std::uint32_t begin, std::uint32_t end) {
    const auto number = static_cast<std::uint32_t>(boxes_.size());
    boxes_.emplace_back();
    Box box{};
    std::fill(box.low, box.low + 3, std::numeric_limits<float>::infinity());
    std::fill(box.high, box.high + 3, -std::numeric_limits<float>::infinity());
    for (std::uint32_t i = begin; i < end; ++i) {
        for (const std::uint32_t corner : triangles_[order_[i]].corner) {
            for (int axis = 0; axis < 3; ++axis) {
                const auto value = static_cast<float>(points_[corner].at[axis]);  // exact, below 2^24
                box.low[axis] = std::min(box.low[axis], value);
                box.high[axis] = std::max(box.high[axis], value);
            }
        }
    }
    if (end - begin <= kLeaf) {
        box.first = begin;
        box.count = end - begin;
        boxes_[number] = box;
        return number;
    }
    int axis = 0;
    for (int other = 1; other < 3; ++other) {
        if (box.high[other] - box.low[other] > box.high[axis] - box.low[axis]) axis = other;
    }
    const auto sum = [&](std::uint32_t triangle) {
        const std::uint32_t* c = triangles_[triangle].corner;
        return std::int64_t{points_[c[0]].at[axis]} + points_[c[1]].at[axis] + points_[c[2]].at[axis];
    };
    const std::uint32_t middle = begin + (end - begin) / 2;
    std::nth_element(order_.begin() + begin, order_.begin() + middle, order_.begin() + end,
                     [&](std::uint32_t a, std::uint32_t b) { return sum(a) < sum(b); });
    build(begin, middle);
    box.first = build(middle, end);
    box.count = 0;
    boxes_[number] = box;
    return number;
}

double Surface::squared_to_box(const Place& place, const Box& box) {
    double sum = 0;
    for (int axis = 0; axis < 3; ++axis) {
        const double out = std::max({box.low[axis] - place[axis], place[axis] - box.high[axis], 0.0});
        sum += out * out;
    }
    return sum;
}

// Looks at which corner or edge the place lies across, by its products with the two edges at a, seen from each corner;
// else it lies over the inside. In a triangle without area nothing may be told so, and all edges are looked at.
double Surface::squared_to_triangle(const Place& place, std::uint32_t triangle) const {
    const std::uint32_t* corner = triangles_[triangle].corner;
    const Place a = place_of(points_[corner[0]]), b = place_of(points_[corner[1]]), c = place_of(points_[corner[2]]);
    const Place ab = less(b, a), ac = less(c, a), ap = less(place, a), bp = less(place, b), cp = less(place, c);
    const double a1 = dot(ab, ap), a2 = dot(ac, ap), b1 = dot(ab, bp), b2 = dot(ac, bp), c1 = dot(ab, cp),
                 c2 = dot(ac, cp);
    if (a1 <= 0 && a2 <= 0) return dot(ap, ap);
    if (b1 >= 0 && b2 <= b1) return dot(bp, bp);
    if (c2 >= 0 && c1 <= c2) return dot(cp, cp);
    const double of_a = b1 * c2 - c1 * b2, of_b = c1 * a2 - a1 * c2, of_c = a1 * b2 - b1 * a2;
    if (of_a > 0 && of_b > 0 && of_c > 0) {
        const double v = of_b / (of_a + of_b + of_c), w = of_c / (of_a + of_b + of_c);
        return squared_to_point(ap, {v * ab[0] + w * ac[0], v * ab[1] + w * ac[1], v * ab[2] + w * ac[2]});
    }
    return std::min(
        {squared_to_segment(place, a, b), squared_to_segment(place, b, c), squared_to_segment(place, c, a)});
}

double Surface::distance(const Place& place, std::uint32_t& near) const {
    if (order_.empty()) return std::numeric_limits<double>::infinity();
    double least = squared_to_triangle(place, order_[near]);
    std::uint32_t stack[64];
    int depth = 0;
    stack[depth++] = 0;
    while (depth > 0 && least > 0) {
        const std::uint32_t number = stack[--depth];
        const Box& box = boxes_[number];
        if (squared_to_box(place, box) >= least) continue;
        if (box.count == 0) {
            const std::uint32_t left = number + 1, right = box.first;
            const bool left_first = squared_to_box(place, boxes_[left]) <= squared_to_box(place, boxes_[right]);
            stack[depth++] = left_first ? right : left;
            stack[depth++] = left_first ? left : right;
            continue;
        }
        for (std::uint32_t i = box.first; i < box.first + box.count; ++i) {
            const double found = squared_to_triangle(place, order_[i]);
            if (found >= least) continue;
            least = found;
            near = i;
        }
    }
    return std::sqrt(least);
}

}  // namespace bmtg
