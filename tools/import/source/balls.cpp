#include "balls.h"

#include <algorithm>
#include <cmath>

#include "nearest.h"

namespace bmtg {
namespace {

// The least whole number whose square is at least n.
std::int64_t root_above(std::int64_t n) {
    auto root = static_cast<std::int64_t>(std::sqrt(static_cast<double>(n)));
    while (root * root < n) ++root;
    while (root > 0 && (root - 1) * (root - 1) >= n) --root;
    return root;
}

double gap(const Place& a, const Place& b) {
    return std::sqrt((a[0] - b[0]) * (a[0] - b[0]) + (a[1] - b[1]) * (a[1] - b[1]) + (a[2] - b[2]) * (a[2] - b[2]));
}

// What a ball has to hold: points are balls of radius 0.
struct Item {
    Place centre;
    double radius;
};

// The middle of the box round all items.
Place middle_of(const std::vector<Item>& items) {
    Place low = items.front().centre, high = low;
    for (const Item& item : items) {
        for (int axis = 0; axis < 3; ++axis) {
            low[axis] = std::min(low[axis], item.centre[axis] - item.radius);
            high[axis] = std::max(high[axis], item.centre[axis] + item.radius);
        }
    }
    return {(low[0] + high[0]) / 2, (low[1] + high[1]) / 2, (low[2] + high[2]) / 2};
}

// Goes from the middle of the box by ever smaller steps to the farthest item, and keeps the best centre on the way.
Place centre_of(const std::vector<Item>& items) {
    constexpr int kSteps = 12;
    Place centre = middle_of(items), best = centre;
    double least = INFINITY;
    for (int step = 0; step < kSteps; ++step) {
        double reach = -1;
        const Item* farthest = nullptr;
        for (const Item& item : items) {
            const double far = gap(centre, item.centre) + item.radius;
            if (far > reach) {
                reach = far;
                farthest = &item;
            }
        }
        if (reach < least) {
            least = reach;
            best = centre;
        }
        const double between = gap(centre, farthest->centre);
        if (between == 0) break;
        const double part = std::min(1.0, reach / between) / (4.0 + 2 * step);
        for (int axis = 0; axis < 3; ++axis) centre[axis] += part * (farthest->centre[axis] - centre[axis]);
    }
    return best;
}

Point rounded(const Place& place) {
    Point point{};
    for (int axis = 0; axis < 3; ++axis) {
        point.at[axis] =
            static_cast<std::int32_t>(std::lround(std::clamp(place[axis], -double(kGridEnd), double(kGridEnd))));
    }
    return point;
}

}  // namespace

bool contains(const Ball& outer, const Ball& inner) {
    const std::int64_t more = outer.radius - inner.radius;
    return more >= 0 && squared_distance(outer.centre, inner.centre) <= more * more;
}

Ball ball_of_all(const std::vector<Point>& points) {
    Place low = place_of(points.front()), high = low;
    for (const Point& point : points) {
        for (int axis = 0; axis < 3; ++axis) {
            low[axis] = std::min(low[axis], double(point.at[axis]));
            high[axis] = std::max(high[axis], double(point.at[axis]));
        }
    }
    Ball ball{rounded({(low[0] + high[0]) / 2, (low[1] + high[1]) / 2, (low[2] + high[2]) / 2}), 0};
    std::int64_t farthest = 0;
    for (const Point& point : points) farthest = std::max(farthest, squared_distance(ball.centre, point));
    ball.radius = root_above(farthest) + 1;
    return ball;
}

Ball ball_round(const std::vector<Point>& points, const std::vector<std::uint32_t>& numbers,
                const std::vector<Ball>& balls, const Ball& whole) {
    std::vector<Item> items;
    items.reserve(numbers.size() + balls.size());
    for (const Ball& ball : balls) items.push_back({place_of(ball.centre), double(ball.radius)});
    for (const std::uint32_t number : numbers) items.push_back({place_of(points[number]), 0});
    Ball found{rounded(centre_of(items)), 0};
    for (const std::uint32_t number : numbers) {
        found.radius = std::max(found.radius, root_above(squared_distance(found.centre, points[number])));
    }
    for (const Ball& ball : balls) {
        found.radius = std::max(found.radius, ball.radius + root_above(squared_distance(found.centre, ball.centre)));
    }
    return contains(whole, found) ? found : whole;
}

}  // namespace bmtg
