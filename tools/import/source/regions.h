// Cutting a mesh into regions of nearly equal numbers of triangles.
#pragma once

#include <cstdint>
#include <vector>

#include "mesh.h"

namespace bmtg {

// Region r has the triangles order[starts[r]] to order[starts[r + 1] - 1].
struct Regions {
    std::vector<std::uint32_t> order;
    std::vector<std::uint32_t> starts;
    std::size_t count() const { return starts.size() - 1; }
};

// A k-d tree over the middles of triangles, along axes that turn from level to level: so the borders of one level run
// through the regions of the next, where they may be simplified. The cut doesn't depend on the number of threads.
Regions cut_into_regions(const Mesh& mesh, std::uint32_t count, std::uint32_t level, unsigned threads);

}  // namespace bmtg
