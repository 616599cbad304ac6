// How far frames are from the input, against what the file says of them.
#pragma once

#include <vector>

#include "graph.h"
#include "nearest.h"
#include "read_mesh.h"
#include "snap.h"

namespace bmtg {

// Points drawn from the input's surface, evenly over its area, in units of the grid but not rounded to it. The same for
// the same input.
std::vector<Place> draw_places(const RawMesh& raw, const Placement& placement, std::size_t count);

// Distances in units of the grid, from the drawn points to one frame.
struct Measured {
    std::uint32_t error;                // the frame of the nodes whose error is above this
    std::size_t triangles;              // of the frame
    std::uint32_t told;                 // the greatest error in the file of what isn't refined
    double mean, nearly_all, greatest;  // nearly all: 99.9 percent of the points are nearer
};

// The finest frame, the base, and some between them.
std::vector<Measured> measure_frames(const Graph& graph, const std::vector<Point>& points,
                                     const std::vector<Place>& places, unsigned threads);

}  // namespace bmtg
