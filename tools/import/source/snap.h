// Placing a mesh in the grid: one scale and an offset, points rounded and joined, flat and doubled triangles dropped.
#pragma once

#include <cstdint>

#include "mesh.h"
#include "read_mesh.h"

namespace bmtg {

// A grid point g stands for offset + unit * g of the input, on each axis.
struct Placement {
    double unit = 1;
    double offset[3] = {0, 0, 0};
};

struct Dropped {
    std::uint64_t flat = 0;     // triangles with two corners that are one point of the grid
    std::uint64_t doubled = 0;  // triangles that stood there before, with the same side outside
    std::uint64_t joined = 0;   // points that became one with a point before them
    std::uint64_t unused = 0;   // points that no triangle has
};

// With unit 0 the unit is the least power of two by which the mesh spans at most `most_units` on each axis: then what
// the input has as fractions of powers of two keeps its value.
Placement place_mesh(const RawMesh& raw, double unit, double most_units);

// Throws Fault where no triangle is left.
Mesh snap_mesh(const RawMesh& raw, const Placement& placement, Dropped& dropped);

}  // namespace bmtg
