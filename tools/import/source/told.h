// What is told of an import: OUT.json, and lines for people.
#pragma once

#include <string>
#include <vector>

#include "levels.h"
#include "measure.h"
#include "options.h"
#include "snap.h"

namespace bmtg {

struct Told {
    Placement placement;
    Dropped dropped;
    std::size_t read_points = 0, read_triangles = 0, thin_faces = 0;  // of the file that was read
    std::size_t points = 0, triangles = 0;                            // in the grid
    std::size_t nodes = 0, patches = 0, patch_triangles = 0, base_triangles = 0, open_edges = 0;
    std::uint64_t bytes = 0;
    std::uint32_t triangles_a_patch = 0;
    int version = 1;
    std::vector<LevelReport> levels;
    std::vector<Measured> measured;
    std::vector<std::string> notes;  // where the importer did other than was asked
};

std::string json_of(const Told& told, const Options& options);
std::string lines_of(const Told& told, const Options& options);

}  // namespace bmtg
