// The graph of a patch file: nodes, and patches that lead from node to node.
#pragma once

#include <cstdint>
#include <vector>

#include "balls.h"
#include "mesh.h"

namespace bmtg {

// A body in the order of the file: the points by their numbers in the mesh, and three places in that list a triangle.
struct Patch {
    std::uint32_t tail = 0, head = 0;
    std::vector<std::uint32_t> points;
    std::vector<std::uint16_t> corners;
    std::size_t triangles() const { return corners.size() / 3; }
};

struct Node {
    Ball ball;
    double error = 0;  // in units of the grid; the file has it rounded up
};

std::uint32_t error_in_file(const Node& node);

// Numbered as in the file: node 0 is the root, the coarse ones come before the fine ones, and the last is the sink.
struct Graph {
    std::vector<Node> nodes;
    std::vector<Patch> patches;
    std::uint32_t sink() const { return static_cast<std::uint32_t>(nodes.size() - 1); }
};

// What patches have to keep to.
struct PatchLimits {
    std::uint32_t triangles;  // of a patch, at most
    int version;              // in version 2 a patch spans at most 65,535 units
};

// Thrown where one triangle spans more than version 2 allows.
struct TooWide {
    std::int64_t span;
};

// Adds patches from a tail to a head with all these triangles: one, or several where limits ask for it, each a compact
// part. The triangles are put into another order.
void add_patches(const std::vector<Point>& points, std::vector<Triangle>& triangles, std::uint32_t tail,
                 std::uint32_t head, const PatchLimits& limits, std::vector<Patch>& patches);

}  // namespace bmtg
