// Reading a mesh file: PLY, OBJ, STL, OFF or glTF, by assimp.
#pragma once

#include <array>
#include <cstdint>
#include <string>
#include <vector>

#include "mesh.h"

namespace bmtg {

// A mesh as the file has it. Corners are below the number of points, and coordinates are finite.
struct RawMesh {
    std::vector<std::array<float, 3>> points;
    std::vector<Triangle> triangles;
    std::uint64_t thin_faces = 0;  // faces with fewer than three corners: lone points and lines, which are dropped
};

// Throws Fault with the first thing that is wrong and its place.
RawMesh read_mesh(const std::string& path);

}  // namespace bmtg
