// The rims of sheets with two faces.
#pragma once

#include <cstdint>
#include <vector>

#include "mesh.h"

namespace bmtg {

// 1 for each point of an edge at which the surface turns back on itself. Such a sheet has no open edge, and a point of
// its rim may wander inwards within its plane: so without this a simplifier eats it up from its rim.
std::vector<std::uint8_t> rim_points(const Mesh& mesh);

}  // namespace bmtg
