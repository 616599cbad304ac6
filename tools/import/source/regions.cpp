#include "regions.h"

#include <algorithm>
#include <cmath>
#include <limits>
#include <thread>

#include "workers.h"

namespace bmtg {
namespace {

struct Middle {
    float along[3];
    std::uint32_t triangle;
};

// Three axes at right angles. Level 0 has those of the grid; the angles of later ones come to no common multiple.
struct Axes {
    double row[3][3];
};

Axes axes_of(std::uint32_t level) {
    const double a = 0.61803398875 * level, b = 0.41421356237 * level, c = 0.73205080757 * level;
    const double ca = std::cos(a), sa = std::sin(a), cb = std::cos(b), sb = std::sin(b), cc = std::cos(c),
                 sc = std::sin(c);
    return {{{ca * cb, ca * sb * sc - sa * cc, ca * sb * cc + sa * sc},
             {sa * cb, sa * sb * sc + ca * cc, sa * sb * cc - ca * sc},
             {-sb, cb * sc, cb * cc}}};
}

std::vector<Middle> middles_of(const Mesh& mesh, const Axes& axes, unsigned threads) {
    constexpr std::size_t kBlock = 65'536;
    std::vector<Middle> middles(mesh.triangles.size());
    do_all((middles.size() + kBlock - 1) / kBlock, threads, [&](std::size_t block) {
        const std::size_t end = std::min(middles.size(), (block + 1) * kBlock);
        for (std::size_t i = block * kBlock; i < end; ++i) {
            double sum[3] = {0, 0, 0};
            for (const std::uint32_t corner : mesh.triangles[i].corner) {
                for (int axis = 0; axis < 3; ++axis) sum[axis] += mesh.points[corner].at[axis];
            }
            for (int axis = 0; axis < 3; ++axis) {
                const double* row = axes.row[axis];
                middles[i].along[axis] = static_cast<float>(row[0] * sum[0] + row[1] * sum[1] + row[2] * sum[2]);
            }
            middles[i].triangle = static_cast<std::uint32_t>(i);
        }
    });
    return middles;
}

int longest_axis(const Middle* begin, const Middle* end) {
    float low[3], high[3];
    std::fill(low, low + 3, std::numeric_limits<float>::infinity());
    std::fill(high, high + 3, -std::numeric_limits<float>::infinity());
    for (const Middle* it = begin; it != end; ++it) {
        for (int axis = 0; axis < 3; ++axis) {
            low[axis] = std::min(low[axis], it->along[axis]);
            high[axis] = std::max(high[axis], it->along[axis]);
        }
    }
    int longest = 0;
    for (int axis = 1; axis < 3; ++axis) {
        if (high[axis] - low[axis] > high[longest] - low[longest]) longest = axis;
    }
    return longest;
}

// Cuts a range into regions, and writes where each ends; `ends` has room for just that many.
void cut(Middle* begin, Middle* end, std::uint32_t count, const Middle* all, std::uint32_t* ends, unsigned threads) {
    if (count == 1) {
        *ends = static_cast<std::uint32_t>(end - all);
        return;
    }
    const std::uint32_t left = count / 2;
    Middle* middle = begin + static_cast<std::uint64_t>(end - begin) * left / count;
    const int axis = longest_axis(begin, end);
    std::nth_element(begin, middle, end, [axis](const Middle& a, const Middle& b) {
        return a.along[axis] != b.along[axis] ? a.along[axis] < b.along[axis] : a.triangle < b.triangle;
    });
    if (threads > 1) {
        std::thread other(cut, begin, middle, left, all, ends, threads / 2);
        cut(middle, end, count - left, all, ends + left, threads - threads / 2);
        other.join();
    } else {
        cut(begin, middle, left, all, ends, 1);
        cut(middle, end, count - left, all, ends + left, 1);
    }
}

}  // namespace

Regions cut_into_regions(const Mesh& mesh, std::uint32_t count, std::uint32_t level, unsigned threads) {
    std::vector<Middle> middles = middles_of(mesh, axes_of(level), threads);
    Regions regions;
    regions.starts.assign(count + 1, 0);
    cut(middles.data(), middles.data() + middles.size(), count, middles.data(), regions.starts.data() + 1, threads);
    regions.order.reserve(middles.size());
    for (const Middle& middle : middles) regions.order.push_back(middle.triangle);
    // In a region triangles keep their order, so that what stood together stays together.
    do_all(count, threads, [&](std::size_t r) {
        std::sort(regions.order.begin() + regions.starts[r], regions.order.begin() + regions.starts[r + 1]);
    });
    return regions;
}

}  // namespace bmtg
