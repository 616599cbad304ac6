#include "levels.h"

#include <algorithm>
#include <cmath>
#include <limits>

#include "local_points.h"
#include "regions.h"
#include "rims.h"
#include "simplify_region.h"
#include "workers.h"

namespace bmtg {
namespace {

constexpr std::uint32_t kSink = std::numeric_limits<std::uint32_t>::max();
constexpr std::uint32_t kPatchesARegion = 4;

// What a region comes to: its node with the patches that lead out of it, and what it leaves to the next level.
struct Step {
    bool taken = false;
    Node node;
    std::vector<Patch> patches;
    std::vector<Triangle> triangles;
};

// Nodes are numbered as they are made, the finest first. `makers` has for each triangle of the mesh the node that made
// it, or kSink for those of the input.
class Builder {
public:
    Builder(const Mesh& mesh, const Settings& settings, Progress& progress)
        : mesh_(mesh),
          settings_(settings),
          progress_(progress),
          whole_(ball_of_all(mesh.points)),
          rims_(rim_points(mesh)),
          makers_(mesh.triangles.size(), kSink) {}

    Built build() {
        std::uint32_t regions = regions_for(mesh_.triangles.size());
        const std::size_t enough = std::max(4u, settings_.limits.triangles / 4);
        for (std::uint32_t level = 0, stuck = 0; mesh_.triangles.size() > enough; ++level) {
            const std::size_t before = mesh_.triangles.size();
            do_level(level, regions);
            if (!fits()) return unfinished();
            stuck = mesh_.triangles.size() * 10 > before * 9 ? stuck + 1 : 0;
            if (stuck == 2 || (stuck == 1 && regions == 1)) break;
            regions = std::min(regions_for(mesh_.triangles.size()), (regions + 1) / 2);
        }
        add_root();
        return fits() ? finished() : unfinished();
    }

private:
    std::uint32_t regions_for(std::size_t triangles) const {
        const std::uint64_t size = std::uint64_t{kPatchesARegion} * settings_.limits.triangles;
        return static_cast<std::uint32_t>(std::max<std::uint64_t>(1, (triangles + size - 1) / size));
    }

    bool fits() const { return nodes_.size() + 1 <= kNodeLimit && patch_count_ <= kPatchLimit; }

    // The fewer and larger the triangles of a level are, the more places are looked at within each.
    std::uint32_t measuring_depth() const {
        constexpr std::size_t kPlaces = 100'000;
        std::uint32_t depth = 0;
        while (depth < 5 && mesh_.triangles.size() << (2 * (depth + 1)) <= kPlaces) ++depth;
        return depth;
    }

    void do_level(std::uint32_t level, std::uint32_t count) {
        progress_.begin_level(level, count);
        const Regions regions = cut_into_regions(mesh_, count, level, settings_.threads);
        const std::vector<std::uint8_t> held = held_points(regions);
        std::vector<Step> steps(count);
        do_all(count, settings_.threads, [&](std::size_t r) {
            steps[r] = take(regions, r, held);
            progress_.region_done(regions.starts[r + 1] - regions.starts[r]);
        });
        put_together(regions, steps);
    }

    // 1 for points of rims, and for those that triangles of more than one region have.
    std::vector<std::uint8_t> held_points(const Regions& regions) const {
        std::vector<std::uint32_t> owner(mesh_.points.size(), kSink);
        std::vector<std::uint8_t> held = rims_;
        for (std::uint32_t r = 0; r < regions.count(); ++r) {
            for (std::uint32_t i = regions.starts[r]; i < regions.starts[r + 1]; ++i) {
                for (const std::uint32_t corner : mesh_.triangles[regions.order[i]].corner) {
                    if (owner[corner] == kSink) owner[corner] = r;
                    if (owner[corner] != r) held[corner] = 1;
                }
            }
        }
        return held;
    }

    Step take(const Regions& regions, std::size_t r, const std::vector<std::uint8_t>& held) const {
        std::vector<std::uint32_t> numbers(regions.order.begin() + regions.starts[r],
                                           regions.order.begin() + regions.starts[r + 1]);
        std::vector<Triangle> taken;
        taken.reserve(numbers.size());
        for (const std::uint32_t number : numbers) taken.push_back(mesh_.triangles[number]);
        Step step;
        Simplified made = simplify_region(mesh_.points, taken, held, measuring_depth());
        if (made.triangles.empty() || made.triangles.size() * 10 > taken.size() * 9) return step;
        step.taken = true;
        step.triangles = std::move(made.triangles);

        std::stable_sort(numbers.begin(), numbers.end(),
                         [&](std::uint32_t a, std::uint32_t b) { return makers_[a] < makers_[b]; });
        std::vector<Ball> below;
        double error = 0;
        add_by_maker(numbers, 0, step.patches);
        for (std::size_t i = 0; i < step.patches.size(); ++i) {
            const std::uint32_t head = step.patches[i].head;
            if (head == kSink || (i > 0 && head == step.patches[i - 1].head)) continue;
            below.push_back(nodes_[head].ball);
            error = std::max(error, nodes_[head].error);
        }
        // A node of error 0 would never be refined.
        step.node.error = std::max(1.0, error + made.error);
        step.node.ball = ball_round(mesh_.points, LocalPoints(taken).points(), below, whole_);
        return step;
    }

    // Patches to each maker of the triangles, which are numbered in the order of their makers.
    void add_by_maker(const std::vector<std::uint32_t>& numbers, std::uint32_t tail,
                      std::vector<Patch>& patches) const {
        for (std::size_t at = 0; at < numbers.size();) {
            const std::uint32_t maker = makers_[numbers[at]];
            std::vector<Triangle> group;
            for (; at < numbers.size() && makers_[numbers[at]] == maker; ++at)
                group.push_back(mesh_.triangles[numbers[at]]);
            add_patches(mesh_.points, group, tail, maker, settings_.limits, patches);
        }
    }

    void put_together(const Regions& regions, std::vector<Step>& steps) {
        LevelReport report{regions.count(), 0, mesh_.triangles.size(), 0, 0};
        std::vector<Triangle> triangles;
        std::vector<std::uint32_t> makers;
        for (std::size_t r = 0; r < steps.size(); ++r) {
            Step& step = steps[r];
            if (!step.taken) {
                for (std::uint32_t i = regions.starts[r]; i < regions.starts[r + 1]; ++i) {
                    triangles.push_back(mesh_.triangles[regions.order[i]]);
                    makers.push_back(makers_[regions.order[i]]);
                }
                continue;
            }
            ++report.simplified;
            report.greatest_error = std::max(report.greatest_error, step.node.error);
            triangles.insert(triangles.end(), step.triangles.begin(), step.triangles.end());
            makers.resize(triangles.size(), static_cast<std::uint32_t>(nodes_.size()));
            nodes_.push_back(step.node);
            patch_count_ += step.patches.size();
            patches_.push_back(std::move(step.patches));
        }
        mesh_.triangles = std::move(triangles);
        makers_ = std::move(makers);
        report.triangles = mesh_.triangles.size();
        levels_.push_back(report);
    }

    void add_root() {
        std::vector<std::uint32_t> numbers(mesh_.triangles.size());
        for (std::uint32_t i = 0; i < numbers.size(); ++i) numbers[i] = i;
        std::stable_sort(numbers.begin(), numbers.end(),
                         [&](std::uint32_t a, std::uint32_t b) { return makers_[a] < makers_[b]; });
        std::vector<Patch> patches;
        add_by_maker(numbers, 0, patches);
        Node root{whole_, 0};
        for (const Patch& patch : patches) {
            if (patch.head != kSink) root.error = std::max(root.error, nodes_[patch.head].error);
        }
        nodes_.push_back(root);
        patch_count_ += patches.size();
        patches_.push_back(std::move(patches));
    }

    Built unfinished() {
        Built built;
        built.fits = false;
        return built;
    }

    // Turns the numbers round, so that the root is 0, and gives the sink the last.
    Built finished() {
        Built built;
        const auto count = static_cast<std::uint32_t>(nodes_.size());
        for (std::uint32_t number = 0; number < count; ++number) {
            const std::uint32_t made = count - 1 - number;
            built.graph.nodes.push_back(nodes_[made]);
            std::vector<Patch>& patches = patches_[made];
            for (Patch& patch : patches) {
                patch.tail = number;
                patch.head = patch.head == kSink ? count : count - 1 - patch.head;
            }
            std::stable_sort(patches.begin(), patches.end(),
                             [](const Patch& a, const Patch& b) { return a.head < b.head; });
            std::move(patches.begin(), patches.end(), std::back_inserter(built.graph.patches));
        }
        built.graph.nodes.push_back(Node{});
        built.base = std::move(mesh_.triangles);
        built.levels = std::move(levels_);
        return built;
    }

    Mesh mesh_;  // the triangles are those of the level
    const Settings& settings_;
    Progress& progress_;
    const Ball whole_;
    const std::vector<std::uint8_t> rims_;
    std::vector<std::uint32_t> makers_;
    std::vector<Node> nodes_;
    std::vector<std::vector<Patch>> patches_;  // those that lead out of each node
    std::size_t patch_count_ = 0;
    std::vector<LevelReport> levels_;
};

}  // namespace

Built build_graph(const Mesh& mesh, const Settings& settings, Progress& progress) {
    return Builder(mesh, settings, progress).build();
}

}  // namespace bmtg
