// From a mesh to a graph: level by level regions are simplified, each a node.
#pragma once

#include <cstdint>
#include <vector>

#include "graph.h"
#include "mesh.h"
#include "progress.h"

namespace bmtg {

struct Settings {
    PatchLimits limits;
    unsigned threads;
};

// What one level did. A region that didn't get smaller by a tenth is left as it is, and no node.
struct LevelReport {
    std::size_t regions, simplified, triangles_before, triangles;
    double greatest_error;
};

struct Built {
    Graph graph;
    std::vector<Triangle> base;
    std::vector<LevelReport> levels;
    bool fits = true;  // false where there are more nodes or patches than the format has; then the graph isn't whole
};

// May throw TooWide (version 2) and Fault.
Built build_graph(const Mesh& mesh, const Settings& settings, Progress& progress);

}  // namespace bmtg
