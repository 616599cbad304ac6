// Sums of edges: what the checker compares, and what a simplified region must keep.
#pragma once

#include <cstdint>
#include <vector>

#include "mesh.h"

namespace bmtg {

// An edge from a to b, with a < b, and how often it stands there less how often the one back does.
struct Net {
    std::uint32_t a, b;
    std::int32_t net;
    bool operator==(const Net& other) const { return a == other.a && b == other.b && net == other.net; }
};

// A triangle's edge by its ends, the lesser first, with the corner across it.
struct Side {
    std::uint32_t greater;  // the greater end
    std::uint32_t across;
    std::int32_t direction;  // 1 from the lesser end to the greater, else -1
};

// The sides of a list of triangles with corners below `points`, by their lesser end, and there by the greater.
class Sides {
public:
    Sides(const std::vector<Triangle>& triangles, std::uint32_t points);

    // Calls visit(lesser end, first side, end of the sides) for each edge that some triangle has, ascending.
    template <typename Visit>
    void for_each_edge(const Visit& visit) const {
        for (std::uint32_t a = 0; a + 1 < starts_.size(); ++a) {
            const Side* end = sides_.data() + starts_[a + 1];
            for (const Side* it = sides_.data() + starts_[a]; it != end;) {
                const Side* first = it;
                while (it != end && it->greater == first->greater) ++it;
                visit(a, first, it);
            }
        }
    }

    // The edges that don't cancel, ascending.
    std::vector<Net> nets() const;

private:
    std::vector<std::uint32_t> starts_;
    std::vector<Side> sides_;
};

}  // namespace bmtg
