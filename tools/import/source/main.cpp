// bmtg-import IN OUT.bmtg: from a mesh to a patch file. The checker's program decides whether the file may be shown;
// this one only has to be right for its files to be accepted.
#include <algorithm>
#include <cstdio>
#include <new>

#include "edges.h"
#include "levels.h"
#include "local_points.h"
#include "measure.h"
#include "options.h"
#include "patch_file.h"
#include "progress.h"
#include "read_mesh.h"
#include "snap.h"
#include "told.h"

namespace bmtg {
namespace {

// By how many units the mesh spans at most where the unit isn't given. In version 1 half the grid, so that an eye has
// room round the mesh; in version 2 what a patch may span, so that each one may.
double most_units(int version) { return version == 2 ? 65'000.0 : 1'048'576.0; }

constexpr std::size_t kDrawn = 20'000;

// What the format's limits leave: all levels together have about twice the input's triangles, and patches are some 0.6
// as large as they may be.
std::uint32_t patch_size_for(std::size_t triangles, std::uint32_t wished) {
    const std::size_t least = triangles * 4 / kPatchLimit;
    return static_cast<std::uint32_t>(std::min<std::size_t>(std::max<std::size_t>(wished, least), kCountLimit));
}

// Builds the graph, with larger patches or in the other version where the limits of the format want it so; that is
// noted.
Built build(const Mesh& mesh, const Options& options, Told& told, Progress& progress) {
    told.version = options.version;
    told.triangles_a_patch = patch_size_for(mesh.triangles.size(), options.triangles);
    for (;;) {
        try {
            Built built = build_graph(mesh, {{told.triangles_a_patch, told.version}, options.threads}, progress);
            if (built.fits) {
                if (told.triangles_a_patch != options.triangles) {
                    told.notes.push_back("patches have up to " + std::to_string(told.triangles_a_patch) +
                                         " triangles, since a file has at most 65536 patches");
                }
                return built;
            }
            if (told.triangles_a_patch == kCountLimit) throw Fault("the mesh needs more patches than the format has");
            told.triangles_a_patch = std::min(2 * told.triangles_a_patch, kCountLimit);
        } catch (const TooWide& wide) {
            told.version = 1;
            told.notes.push_back("the file is of version 1, since a triangle spans " + std::to_string(wide.span) +
                                 " units, and version 2 has at most 65535");
        }
    }
}

void count_graph(const Built& built, Told& told) {
    told.nodes = built.graph.nodes.size();
    told.patches = built.graph.patches.size();
    for (const Patch& patch : built.graph.patches) told.patch_triangles += patch.triangles();
    told.base_triangles = built.base.size();
    const LocalPoints local(built.base);
    told.open_edges = Sides(local.triangles(), local.count()).nets().size();
    told.levels = built.levels;
}

void write_files(const Built& built, const Mesh& mesh, const Options& options, Told& told) {
    WholeFile file(options.output), beside(options.told);
    told.bytes = write_graph(file, built.graph, mesh.points, told.version);
    const std::string json = json_of(told, options);
    beside.write(json.data(), json.size());
    file.close();
    beside.close();
    file.keep();
    beside.keep();
}

void import_mesh(const Options& options) {
    Progress progress(options.quiet);
    Told told;
    progress.say("reading " + options.input);
    RawMesh raw = read_mesh(options.input);
    told.read_points = raw.points.size();
    told.read_triangles = raw.triangles.size();
    told.thin_faces = raw.thin_faces;
    progress.say("joining points");
    told.placement = place_mesh(raw, options.unit, most_units(options.version));
    const Mesh mesh = snap_mesh(raw, told.placement, told.dropped);
    std::vector<Place> places;
    if (options.measure) places = draw_places(raw, told.placement, kDrawn);
    raw = RawMesh();
    told.points = mesh.points.size();
    told.triangles = mesh.triangles.size();

    const Built built = build(mesh, options, told, progress);
    count_graph(built, told);
    progress.say("measuring");
    if (options.measure) told.measured = measure_frames(built.graph, mesh.points, places, options.threads);
    progress.say("writing " + options.output);
    write_files(built, mesh, options, told);
    progress.clear();
    if (!options.quiet) std::fputs(lines_of(told, options).c_str(), stdout);
}

}  // namespace
}  // namespace bmtg

int main(int count, char** words) {
    const bmtg::Options options = bmtg::read_options(count, words);
    bmtg::take_files_away_when_interrupted();
    try {
        bmtg::import_mesh(options);
        return 0;
    } catch (const bmtg::Fault& fault) {
        std::fprintf(stderr, "bmtg-import: %s\n", fault.what());
    } catch (const std::bad_alloc&) {
        std::fprintf(stderr, "bmtg-import: there is no memory\n");
    }
    return 1;
}
